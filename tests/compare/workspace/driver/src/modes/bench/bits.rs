//! Readings over inputs that fit into the processor's caches.

use std::hint::black_box;

use vrf_bitio::BitReader;

use super::case::{Case, shared};
use crate::error::Error;
use crate::ported::loops;
use crate::rng::Rng;
use crate::stream::Stream;

/// The input's bytes: few enough for the caches, so that the reading is what is
/// timed.
const INPUT: u64 = 1 << 18;

/// The most bytes of one text.
const TEXT_BUFFER: usize = 4_096;

const WIRE_TEXT_TOP: i64 = 1_048_576;

pub fn cases() -> Result<Vec<Case>, Error> {
    let mut rng = Rng::new(7);
    let mut cases = numbers(&mut rng);
    cases.append(&mut texts(&mut rng));
    cases.append(&mut copies(&mut rng)?);
    Ok(cases)
}

fn numbers(rng: &mut Rng) -> Vec<Case> {
    let mut cases = Vec::new();
    for (name, widest) in [("read_bits_1_64", 64), ("read_bits_1_8", 8)] {
        let widths: Vec<u8> = (0..509).map(|_| 1 + rng.below(widest) as u8).collect();
        let (rust, port) = shared((rng.bytes(INPUT), widths));
        cases.push(Case::new(
            name,
            move || original::read_bits(&rust.0, &rust.1),
            move || loops::read_bits(&port.0, &port.1),
        ));
    }
    let (rust, port) = shared(packed_numbers(rng));
    cases.push(Case::new(
        "read_int_packed",
        move || original::read_int_packed(&rust),
        move || loops::read_int_packed(&port),
    ));
    cases
}

fn packed_numbers(rng: &mut Rng) -> Vec<u8> {
    let mut stream = Stream::new();
    while stream.len() < INPUT * 8 {
        stream.packed(rng.magnitude(32) as u32, 1);
    }
    stream.into_bytes()
}

fn texts(rng: &mut Rng) -> Vec<Case> {
    let typical = |rng: &mut Rng| {
        let len = 20 + rng.below(61);
        object_path(rng, len)
    };
    let long = |rng: &mut Rng| object_path(rng, 3_000);
    let inputs = [
        ("ascii", 0, text_stream(rng, 0, write_utf8, typical)),
        ("ascii_skip_3", 3, text_stream(rng, 3, write_utf8, typical)),
        ("ascii_long", 0, text_stream(rng, 0, write_utf8, long)),
        (
            "ascii_long_skip_3",
            3,
            text_stream(rng, 3, write_utf8, long),
        ),
        ("mixed", 0, text_stream(rng, 0, write_utf8, mixed_path)),
        (
            "mixed_skip_3",
            3,
            text_stream(rng, 3, write_utf8, mixed_path),
        ),
        ("utf16", 0, text_stream(rng, 0, write_utf16, mixed_path)),
        ("utf16_ascii", 0, text_stream(rng, 0, write_utf16, typical)),
    ];
    let mut cases = Vec::new();
    for (name, skip, input) in inputs {
        let (rust, port) = shared(input);
        let mut buffer = vec![0; TEXT_BUFFER];
        cases.push(Case::new(
            format!("read_fstring_{name}"),
            move || original::read_fstring(&rust, skip),
            move || loops::read_fstring(&port, skip, &mut buffer),
        ));
    }
    cases
}

/// `skip` zero bits, then texts, each with its final zero.
fn text_stream(
    rng: &mut Rng,
    skip: u64,
    write: impl Fn(&mut Stream, &str),
    text: impl Fn(&mut Rng) -> String,
) -> Vec<u8> {
    let mut stream = Stream::new();
    stream.bits(0, skip as u32);
    while stream.len() < INPUT * 8 {
        write(&mut stream, &(text(rng) + "\0"));
    }
    stream.into_bytes()
}

fn write_utf8(stream: &mut Stream, text: &str) {
    stream.text8(text.as_bytes());
}

fn write_utf16(stream: &mut Stream, text: &str) {
    stream.text16(&text.encode_utf16().collect::<Vec<_>>());
}

/// Words joined to a path like those of objects, cut to `len` bytes.
fn object_path(rng: &mut Rng, len: u64) -> String {
    let words = [
        "/Game/",
        "Characters/",
        "_Core/",
        "Comp_",
        "Weapon",
        ".Default__",
        "State_C",
    ];
    let mut path = String::new();
    while (path.len() as u64) < len {
        path += rng.pick(&words);
    }
    path.truncate(len as usize);
    path
}

/// ASCII words with accented and Korean ones between them.
fn mixed_path(rng: &mut Rng) -> String {
    let words = [
        "/Game/",
        "\u{e9}t\u{e9}",
        "\u{d55c}\u{ad6d}\u{c5b4}",
        "Stra\u{df}e",
        "Map_",
    ];
    let mut path = String::new();
    for _ in 0..5 + rng.below(8) {
        path += rng.pick(&words);
    }
    path
}

fn copies(rng: &mut Rng) -> Result<Vec<Case>, Error> {
    let inputs = [
        ("copy_bits_to_64_skip_3", 3, 64),
        ("copy_bits_to_200_skip_3", 3, 200),
        ("copy_bits_to_1001_skip_3", 3, 1_001),
        ("copy_bits_to_8000_skip_3", 3, 8_000),
        ("copy_bits_to_64_aligned", 0, 64),
        ("copy_bits_to_200_aligned", 0, 200),
        ("copy_bits_to_1000_aligned", 0, 1_000),
        ("copy_bits_to_8000_aligned", 0, 8_000),
    ];
    inputs
        .into_iter()
        .map(|(name, skip, bits)| copy_case(rng, name, skip, bits))
        .collect()
}

/// The number of copies says little, so the bytes of the last copy are
/// compared.
fn copy_case(rng: &mut Rng, name: &'static str, skip: u64, bits: u64) -> Result<Case, Error> {
    let (rust, port) = shared(rng.bytes(INPUT));
    let mut rust_buffer = vec![0; bits.div_ceil(8) as usize];
    let mut port_buffer = rust_buffer.clone();
    original::copy_bits_to(&rust, skip, &mut rust_buffer, bits);
    loops::copy_bits_to(&port, skip, &mut port_buffer, bits);
    if rust_buffer != port_buffer {
        return Err(Error::Wrong(format!("{name}: the copies differ")));
    }
    Ok(Case::new(
        name,
        move || original::copy_bits_to(&rust, skip, &mut rust_buffer, bits),
        move || loops::copy_bits_to(&port, skip, &mut port_buffer, bits),
    ))
}

/// The loops over the original that the C functions are compared with. They are
/// never inlined: so they are called as the C functions are, and nothing is
/// computed before a repetition.
mod original {
    use super::{BitReader, WIRE_TEXT_TOP, black_box};

    #[inline(never)]
    pub fn read_bits(s: &[u8], widths: &[u8]) -> u64 {
        let mut reader = BitReader::new(black_box(s));
        let mut sum = 0_u64;
        // The widths are repeated without an index, which would have to be
        // checked or reduced.
        loop {
            for &width in widths {
                match reader.read_bits(u32::from(width)) {
                    Ok(value) => sum = sum.wrapping_add(value),
                    Err(_) => return sum,
                }
            }
        }
    }

    #[inline(never)]
    pub fn read_int_packed(s: &[u8]) -> u64 {
        let mut reader = BitReader::new(black_box(s));
        let mut sum = 0_u64;
        while let Ok(value) = reader.read_int_packed() {
            sum = sum.wrapping_add(u64::from(value));
        }
        sum
    }

    #[inline(never)]
    pub fn read_fstring(s: &[u8], skip: u64) -> u64 {
        let mut reader = BitReader::new(black_box(s));
        let mut sum = 0_u64;
        if reader.read_bits(skip as u32).is_err() {
            return sum;
        }
        while let Ok(text) = reader.read_fstring(WIRE_TEXT_TOP) {
            // The text must be built, not only its length.
            sum = sum.wrapping_add(black_box(text).len() as u64);
        }
        sum
    }

    #[inline(never)]
    pub fn copy_bits_to(s: &[u8], skip: u64, dst: &mut [u8], bits: u64) -> u64 {
        let mut reader = BitReader::new(black_box(s));
        let mut copies = 0;
        if reader.read_bits(skip as u32).is_err() {
            return copies;
        }
        while reader.copy_bits_to(dst, bits).is_ok() {
            copies += 1;
        }
        copies
    }
}
