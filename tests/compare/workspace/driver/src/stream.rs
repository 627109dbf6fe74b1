//! Writes bits, lowest first, and the encodings that readings expect. It writes
//! invalid ones too.

#[derive(Clone, Default)]
pub struct Stream {
    bytes: Vec<u8>,
    len: u64,
    ended: bool,
}

impl Stream {
    pub fn new() -> Self {
        Self::default()
    }

    /// In bits.
    pub fn len(&self) -> u64 {
        self.len
    }

    /// The bytes so far. The last one is padded with zeroes.
    pub fn as_bytes(&self) -> &[u8] {
        &self.bytes
    }

    pub fn into_bytes(self) -> Vec<u8> {
        self.bytes
    }

    /// Ignores everything that is written from here on.
    pub fn end(&mut self) {
        self.ended = true;
    }

    pub fn bit(&mut self, bit: bool) {
        if self.ended {
            return;
        }
        let offset = self.len % 8;
        if offset == 0 {
            self.bytes.push(0);
        }
        *self.bytes.last_mut().expect("just pushed or not full") |= u8::from(bit) << offset;
        self.len += 1;
    }

    /// Writes the low `width` bits of `value`, at most 64.
    pub fn bits(&mut self, value: u64, width: u32) {
        for i in 0..width {
            self.bit(value >> i & 1 == 1);
        }
    }

    pub fn bytes(&mut self, bytes: &[u8]) {
        if self.len.is_multiple_of(8) && !self.ended {
            self.bytes.extend_from_slice(bytes);
            self.len += bytes.len() as u64 * 8;
            return;
        }
        for &byte in bytes {
            self.bits(u64::from(byte), 8);
        }
    }

    pub fn stream(&mut self, other: &Stream) {
        let whole = (other.len / 8) as usize;
        self.bytes(&other.bytes[..whole]);
        if let Some(&last) = other.bytes.get(whole) {
            self.bits(u64::from(last), (other.len % 8) as u32);
        }
    }

    pub fn i32(&mut self, value: i32) {
        self.bytes(&value.to_le_bytes());
    }

    /// Writes a packed number in at least `fewest` bytes, at most five. The
    /// additional bytes are zeroes.
    pub fn packed(&mut self, value: u32, fewest: u32) {
        let mut left = value;
        for nth in 1.. {
            let more = left >> 7 != 0 || nth < fewest;
            self.bits(u64::from(left & 0x7F) << 1 | u64::from(more), 8);
            left >>= 7;
            if !more {
                return;
            }
        }
    }

    /// Writes a length, then the bytes, which need not be valid UTF-8.
    pub fn text8(&mut self, bytes: &[u8]) {
        self.i32(bytes.len() as i32);
        self.bytes(bytes);
    }

    /// Writes a negative length, then the units, which need not be valid
    /// UTF-16.
    pub fn text16(&mut self, units: &[u16]) {
        self.i32(-(units.len() as i32));
        for unit in units {
            self.bytes(&unit.to_le_bytes());
        }
    }

    /// Writes a field name as a text and a number.
    pub fn name(&mut self, base: &[u8], number: i32) {
        self.bits(0, 8);
        self.text8(base);
        self.i32(number);
    }
}
