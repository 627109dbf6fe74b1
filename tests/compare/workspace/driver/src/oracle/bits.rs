//! The call `bits`: a window, and readings in it with the original's
//! `BitReader`.

use vrf_bitio::BitReader;

use super::texts::{read_name, read_text};
use super::windows::with_window;
use super::{Answered, print};
use crate::answer::{Answers, Refusal};
use crate::script::{Reading, Win};

/// The widest number that `read_bits` reads (refusal 16).
const WIDTH_TOP: u32 = 64;

/// The value of every byte of a copy's target before the call.
const TARGET_BYTE: u8 = 0xA5;

/// A refused window has no cursor, so its readings are not made.
pub fn play(win: &Win<'_>, readings: &[Reading], answers: &mut Answers) {
    let refused = with_window(win, |reader| {
        answers.line(|answers| answers.word("window"));
        play_readings(reader, readings, answers);
    });
    if let Err(refusal) = refused {
        answers.line(|answers| answers.refusal(refusal));
    }
}

fn play_readings(reader: BitReader<'_>, readings: &[Reading], answers: &mut Answers) {
    let mut windows = Windows::new(reader);
    for reading in readings {
        answers.line(|answers| {
            let position = windows.play(*reading, answers);
            answers.word(" at ");
            answers.number(position);
        });
    }
}

/// The window of the next reading, and the windows around it.
struct Windows<'a> {
    current: BitReader<'a>,
    /// The innermost is the last.
    around: Vec<BitReader<'a>>,
}

impl<'a> Windows<'a> {
    fn new(reader: BitReader<'a>) -> Self {
        Windows {
            current: reader,
            around: Vec::new(),
        }
    }

    /// Makes one reading and prints its answer. Returns the position that is
    /// printed after it.
    fn play(&mut self, reading: Reading, answers: &mut Answers) -> u64 {
        match reading {
            Reading::Bit => self.number(answers, |r| Ok(u64::from(r.read_bit()?))),
            Reading::Bits(width) => self.number(answers, |r| read_bits(r, width)),
            Reading::U8 => self.number(answers, |r| Ok(u64::from(r.read_u8()?))),
            Reading::U32 => self.number(answers, |r| Ok(u64::from(r.read_u32()?))),
            Reading::I32 => self.signed(answers),
            Reading::Packed => self.number(answers, |r| Ok(u64::from(r.read_int_packed()?))),
            Reading::Text => self.text(answers, read_text),
            Reading::Name => self.text(answers, read_name),
            Reading::Copy { target, bits } => self.copy(answers, target, bits),
            Reading::Sub(bits) => return self.enter(answers, bits),
            Reading::Up => self.leave(answers),
        }
        self.current.position()
    }

    /// After an error the original's position may be inside what it did not
    /// finish. A refused reading must move nothing, so the original reads on a
    /// copy, which is kept only after a success.
    fn attempt<T>(&mut self, read: impl FnOnce(&mut BitReader<'a>) -> Answered<T>) -> Answered<T> {
        let mut copy = self.current.clone();
        let value = read(&mut copy)?;
        self.current = copy;
        Ok(value)
    }

    fn number(
        &mut self,
        answers: &mut Answers,
        read: impl FnOnce(&mut BitReader<'a>) -> Answered<u64>,
    ) {
        let answer = self.attempt(read);
        print(answers, answer, |answers, value| {
            answers.word("value ");
            answers.number(value);
        });
    }

    fn signed(&mut self, answers: &mut Answers) {
        let answer = self.attempt(|r| Ok(r.read_i32()?));
        print(answers, answer, |answers, value| {
            answers.word("value ");
            answers.signed(i64::from(value));
        });
    }

    fn text(
        &mut self,
        answers: &mut Answers,
        read: impl FnOnce(&mut BitReader<'a>) -> Answered<String>,
    ) {
        let answer = self.attempt(read);
        print(answers, answer, |answers, text| {
            answers.word("text ");
            answers.quoted(text.as_bytes());
        });
    }

    /// The target is also printed after a refusal: it must be unchanged.
    fn copy(&mut self, answers: &mut Answers, target: u32, bits: u64) {
        let mut lent = vec![TARGET_BYTE; target as usize];
        let answer = self.attempt(|r| Ok(r.copy_bits_to(&mut lent, bits)?));
        print(answers, answer, |answers, ()| answers.word("copied"));
        answers.word(" target ");
        answers.quoted(&lent);
    }

    /// Opens an inner window over the next bits. Returns the position in the
    /// outer window.
    fn enter(&mut self, answers: &mut Answers, bits: u64) -> u64 {
        let answer = self.attempt(|r| Ok(r.sub_reader(bits)?));
        let position = self.current.position();
        print(answers, answer, |answers, inner| {
            answers.word("inner");
            self.around
                .push(std::mem::replace(&mut self.current, inner));
        });
        position
    }

    fn leave(&mut self, answers: &mut Answers) {
        answers.word("up");
        if let Some(outer) = self.around.pop() {
            self.current = outer;
        }
    }
}

/// The original requires a width of at most 64 from its caller.
fn read_bits(reader: &mut BitReader<'_>, width: u32) -> Answered<u64> {
    if width > WIDTH_TOP {
        return Err(Refusal::new(16, u64::from(width), 0));
    }
    Ok(reader.read_bits(width)?)
}
