//! Calls the C functions of the ported code, if it was linked.

use std::env;

use crate::error::Error;
use crate::oracle;

/// Bytes after each lent buffer that the ported code must not change.
const GUARD: usize = 64;
const GUARD_BYTE: u8 = 0xC3;

/// A lent buffer with a guard after it.
struct Lent {
    bytes: Vec<u8>,
}

impl Lent {
    /// The system provides memory for zeroes only when they are written to, so
    /// a long buffer costs only the part that is used.
    fn new(len: usize) -> Self {
        let mut bytes = vec![0; len + GUARD];
        bytes[len..].fill(GUARD_BYTE);
        Lent { bytes }
    }

    fn len(&self) -> usize {
        self.bytes.len() - GUARD
    }

    fn is_intact(&self) -> bool {
        self.bytes[self.len()..].iter().all(|&b| b == GUARD_BYTE)
    }
}

/// The side that is compared with the oracle.
pub enum Player {
    Ported(Ported),
    /// The oracle again. It can test the comparison without ported code.
    Oracle(Oracle),
}

/// The oracle in place of the ported code. `flaw` changes its answers, as wrong
/// ported code would.
pub struct Oracle {
    /// The answers to the last script. The buffer is used again.
    answers: Vec<u8>,
    flaw: Option<fn(Vec<u8>) -> Vec<u8>>,
}

impl Player {
    /// The ported code, or the oracle if `VRF_COMPARE_SELF` is set.
    pub fn new(memory: usize) -> Result<Self, Error> {
        if env::var_os("VRF_COMPARE_SELF").is_some_and(|value| !value.is_empty()) {
            return Ok(Self::oracle(None));
        }
        Ok(Player::Ported(Ported::new(memory)?))
    }

    pub fn oracle(flaw: Option<fn(Vec<u8>) -> Vec<u8>>) -> Self {
        Player::Oracle(Oracle {
            answers: Vec::new(),
            flaw,
        })
    }

    /// The answers to `script`. The ported code gets a buffer of at least
    /// `space` bytes for them.
    pub fn play(&mut self, script: &[u8], space: usize) -> Result<&[u8], Error> {
        match self {
            Player::Ported(ported) => ported.play(script, space),
            Player::Oracle(oracle) => oracle.play(script),
        }
    }
}

impl Oracle {
    fn play(&mut self, script: &[u8]) -> Result<&[u8], Error> {
        let mut answers = oracle::play(script, std::mem::take(&mut self.answers))?;
        if let Some(flaw) = self.flaw {
            answers = flaw(answers);
        }
        self.answers = answers;
        Ok(&self.answers)
    }
}

/// Plays scripts with the ported code. The buffers are not cleared between two
/// scripts: what a script left there must not matter to the next.
pub struct Ported {
    memory: Lent,
    scratch: Lent,
    out: Lent,
}

impl Ported {
    fn new(memory: usize) -> Result<Self, Error> {
        if !cfg!(has_replay) {
            return Err(Error::NoLibrary("VRF_STATICLIB", "libvrf_replay.a"));
        }
        Ok(Ported {
            memory: Lent::new(memory),
            scratch: Lent::new(memory),
            out: Lent::new(0),
        })
    }

    fn play(&mut self, script: &[u8], space: usize) -> Result<&[u8], Error> {
        if self.out.len() < space {
            self.out = Lent::new(space);
        }
        let len = call_replay(script, &mut self.memory, &mut self.scratch, &mut self.out);
        let lent = [&self.memory, &self.scratch, &self.out];
        if !lent.iter().all(|lent| lent.is_intact()) {
            return Err(Error::Ported(
                "it wrote past the end of a lent buffer".into(),
            ));
        }
        match usize::try_from(len)
            .ok()
            .and_then(|n| self.out.bytes[..self.out.len()].get(..n))
        {
            Some(text) => Ok(text),
            None => Err(Error::Ported(format!(
                "it returned {len} bytes of text for a buffer of {}",
                self.out.len()
            ))),
        }
    }
}

#[cfg(has_replay)]
fn call_replay(script: &[u8], memory: &mut Lent, scratch: &mut Lent, out: &mut Lent) -> u64 {
    unsafe extern "C" {
        fn vrf_replay(
            script: *const u8,
            script_len: usize,
            memory: *mut u8,
            memory_len: usize,
            scratch: *mut u8,
            scratch_len: usize,
            out: *mut u8,
            out_len: usize,
        ) -> u64;
    }
    // SAFETY: four separate buffers with their lengths, borrowed for the call.
    unsafe {
        vrf_replay(
            script.as_ptr(),
            script.len(),
            memory.bytes.as_mut_ptr(),
            memory.len(),
            scratch.bytes.as_mut_ptr(),
            scratch.len(),
            out.bytes.as_mut_ptr(),
            out.len(),
        )
    }
}

#[cfg(not(has_replay))]
fn call_replay(_: &[u8], _: &mut Lent, _: &mut Lent, _: &mut Lent) -> u64 {
    unreachable!("a player needs the library")
}

/// The C functions that the bench times.
#[cfg(has_bench)]
pub mod loops {
    mod c {
        unsafe extern "C" {
            pub fn bench_read_bits(s: *const u8, n: usize, widths: *const u8, m: usize) -> u64;
            pub fn bench_read_int_packed(s: *const u8, n: usize) -> u64;
            pub fn bench_read_fstring(
                s: *const u8,
                n: usize,
                skip: u64,
                out: *mut u8,
                m: usize,
            ) -> u64;
            pub fn bench_copy_bits_to(
                s: *const u8,
                n: usize,
                skip: u64,
                dst: *mut u8,
                m: usize,
                bits: u64,
            ) -> u64;
            pub fn bench_fill(
                memory: *mut u8,
                memory_len: usize,
                guids: u64,
                groups: u64,
                fields: u64,
                text: u64,
                sheet: *const u8,
                sheet_len: usize,
                texts: *const u8,
                texts_len: usize,
            ) -> u64;
            pub fn bench_check(memory: *const u8, memory_len: usize) -> bool;
            pub fn bench_look(
                memory: *const u8,
                memory_len: usize,
                what: u32,
                sheet: *const u8,
                sheet_len: usize,
                texts: *const u8,
                texts_len: usize,
            ) -> u64;
            pub fn bench_read_block(
                memory: *mut u8,
                memory_len: usize,
                guids: u64,
                groups: u64,
                fields: u64,
                text: u64,
                block: *const u8,
                block_len: usize,
                checked: bool,
            ) -> u64;
            pub fn bench_read_runs(
                memory: *mut u8,
                memory_len: usize,
                runs: *const u8,
                runs_len: usize,
                count: u32,
                checked: bool,
            ) -> u64;
            pub fn bench_write_block(
                memory: *const u8,
                memory_len: usize,
                out: *mut u8,
                out_len: usize,
                checked: bool,
            ) -> u64;
        }
    }

    // SAFETY, for all of them: slices with their own lengths, borrowed for the
    // call.

    pub fn read_bits(s: &[u8], widths: &[u8]) -> u64 {
        unsafe { c::bench_read_bits(s.as_ptr(), s.len(), widths.as_ptr(), widths.len()) }
    }

    pub fn read_int_packed(s: &[u8]) -> u64 {
        unsafe { c::bench_read_int_packed(s.as_ptr(), s.len()) }
    }

    pub fn read_fstring(s: &[u8], skip: u64, out: &mut [u8]) -> u64 {
        unsafe { c::bench_read_fstring(s.as_ptr(), s.len(), skip, out.as_mut_ptr(), out.len()) }
    }

    pub fn copy_bits_to(s: &[u8], skip: u64, dst: &mut [u8], bits: u64) -> u64 {
        unsafe {
            c::bench_copy_bits_to(s.as_ptr(), s.len(), skip, dst.as_mut_ptr(), dst.len(), bits)
        }
    }

    /// Opens a book and makes a sheet's calls on it.
    pub fn fill(memory: &mut [u8], allowances: [u64; 4], sheet: &[u8], texts: &[u8]) -> u64 {
        let [guids, groups, fields, text] = allowances;
        unsafe {
            c::bench_fill(
                memory.as_mut_ptr(),
                memory.len(),
                guids,
                groups,
                fields,
                text,
                sheet.as_ptr(),
                sheet.len(),
                texts.as_ptr(),
                texts.len(),
            )
        }
    }

    pub fn check(memory: &[u8]) -> bool {
        unsafe { c::bench_check(memory.as_ptr(), memory.len()) }
    }

    /// Makes a sheet's lookups, all of one kind. The book must have passed its
    /// check.
    pub fn look(memory: &[u8], what: u32, sheet: &[u8], texts: &[u8]) -> u64 {
        unsafe {
            c::bench_look(
                memory.as_ptr(),
                memory.len(),
                what,
                sheet.as_ptr(),
                sheet.len(),
                texts.as_ptr(),
                texts.len(),
            )
        }
    }

    /// Opens a book, with one literal for each GUID, and reads a block into it.
    pub fn read_block(memory: &mut [u8], allowances: [u64; 4], block: &[u8], checked: bool) -> u64 {
        let [guids, groups, fields, text] = allowances;
        unsafe {
            c::bench_read_block(
                memory.as_mut_ptr(),
                memory.len(),
                guids,
                groups,
                fields,
                text,
                block.as_ptr(),
                block.len(),
                checked,
            )
        }
    }

    /// Reads `count` fields runs into a book that has passed its check.
    pub fn read_runs(memory: &mut [u8], runs: &[u8], count: u32, checked: bool) -> u64 {
        unsafe {
            c::bench_read_runs(
                memory.as_mut_ptr(),
                memory.len(),
                runs.as_ptr(),
                runs.len(),
                count,
                checked,
            )
        }
    }

    /// Writes the block of a book that has passed its check.
    pub fn write_block(memory: &[u8], out: &mut [u8], checked: bool) -> u64 {
        unsafe {
            c::bench_write_block(
                memory.as_ptr(),
                memory.len(),
                out.as_mut_ptr(),
                out.len(),
                checked,
            )
        }
    }
}
