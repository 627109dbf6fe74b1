//! The text of the answers.

/// A refusal with its number and its two details, as in document 01.
#[derive(Clone, Copy, Debug, PartialEq, Eq)]
pub struct Refusal {
    pub number: u32,
    pub a: u64,
    pub b: u64,
}

impl Refusal {
    pub const fn new(number: u32, a: u64, b: u64) -> Self {
        Refusal { number, a, b }
    }
}

/// The lines printed so far. Callers write the spaces between the parts of a
/// line.
pub struct Answers {
    text: Vec<u8>,
    call: u64,
}

impl Answers {
    /// Appends to `text`, so that its memory is used again.
    pub fn new(text: Vec<u8>) -> Self {
        Answers { text, call: 0 }
    }

    pub fn into_text(self) -> Vec<u8> {
        self.text
    }

    /// The lines that follow belong to the next call.
    pub fn next_call(&mut self) {
        self.call += 1;
    }

    /// A line of the current call; `write` writes what follows the call's
    /// number.
    pub fn line(&mut self, write: impl FnOnce(&mut Self)) {
        self.number(self.call);
        self.text.push(b' ');
        write(self);
        self.text.push(b'\n');
    }

    pub fn word(&mut self, word: &str) {
        self.text.extend_from_slice(word.as_bytes());
    }

    pub fn number(&mut self, number: u64) {
        let mut digits = [0; 20];
        let mut at = digits.len();
        let mut left = number;
        loop {
            at -= 1;
            digits[at] = b'0' + (left % 10) as u8;
            left /= 10;
            if left == 0 {
                break;
            }
        }
        self.text.extend_from_slice(&digits[at..]);
    }

    /// A label, a space and a number.
    pub fn labelled(&mut self, label: &str, number: u64) {
        self.word(label);
        self.word(" ");
        self.number(number);
    }

    /// Always 16 digits.
    pub fn hexadecimal(&mut self, number: u64) {
        self.word(&format!("{number:016x}"));
    }

    pub fn signed(&mut self, number: i64) {
        if number < 0 {
            self.text.push(b'-');
        }
        self.number(number.unsigned_abs());
    }

    pub fn quoted(&mut self, bytes: &[u8]) {
        self.text.push(b'"');
        for &byte in bytes {
            if matches!(byte, 0x20..=0x7E) && byte != b'"' && byte != b'\\' {
                self.text.push(byte);
            } else {
                self.escaped(byte);
            }
        }
        self.text.push(b'"');
    }

    fn escaped(&mut self, byte: u8) {
        const DIGITS: &[u8; 16] = b"0123456789abcdef";
        let high = DIGITS[usize::from(byte >> 4)];
        let low = DIGITS[usize::from(byte & 15)];
        self.text.extend_from_slice(&[b'\\', b'x', high, low]);
    }

    pub fn refusal(&mut self, refusal: Refusal) {
        self.word("refused ");
        self.number(u64::from(refusal.number));
        self.word(" ");
        self.number(refusal.a);
        self.word(" ");
        self.number(refusal.b);
    }
}
