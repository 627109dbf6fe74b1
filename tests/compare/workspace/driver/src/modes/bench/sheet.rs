//! Sheets of book calls and lookups: rows of six words, and their texts in a
//! second list. Both sides read the same bytes.

const ROW: usize = 24;

pub const SET_GUID: u32 = 0;
pub const ADD_GROUP: u32 = 1;
pub const SET_FIELD: u32 = 2;

/// A call has a kind, numbers and a text. The numbers are a GUID and its outer;
/// or a group's index and its slots; or a field's group index, handle and
/// checksum. A lookup has the first number or the text.
#[derive(Clone, Copy)]
pub struct Row {
    pub kind: u32,
    pub a: u32,
    pub b: u32,
    pub c: u32,
    at: u32,
    len: u32,
}

#[derive(Default)]
pub struct Sheet {
    pub rows: Vec<u8>,
    pub texts: Vec<u8>,
}

impl Sheet {
    pub fn push(&mut self, kind: u32, numbers: [u32; 3], text: &str) {
        let [a, b, c] = numbers;
        let (at, len) = (self.texts.len() as u32, text.len() as u32);
        for word in [kind, a, b, c, at, len] {
            self.rows.extend(word.to_le_bytes());
        }
        self.texts.extend(text.as_bytes());
    }

    /// Adds a lookup.
    pub fn ask(&mut self, number: u32, text: &str) {
        self.push(0, [number, 0, 0], text);
    }

    pub fn len(&self) -> u64 {
        (self.rows.len() / ROW) as u64
    }

    /// The number of rows of a kind.
    pub fn count(&self, kind: u32) -> u64 {
        self.rows().filter(|row| row.kind == kind).count() as u64
    }

    #[inline]
    pub fn rows(&self) -> impl Iterator<Item = Row> {
        self.rows.chunks_exact(ROW).map(|row| {
            let word = |i: usize| u32::from_le_bytes(row[4 * i..4 * i + 4].try_into().unwrap());
            Row {
                kind: word(0),
                a: word(1),
                b: word(2),
                c: word(3),
                at: word(4),
                len: word(5),
            }
        })
    }

    #[inline]
    pub fn text(&self, row: Row) -> &[u8] {
        let from = row.at as usize;
        self.texts
            .get(from..from + row.len as usize)
            .unwrap_or_default()
    }
}
