//! The dossier cut into records.

use crate::refusals::Refusal;

const HEAD: usize = 4;

/// The two-byte number at field `at`. Callers know that it is there from the record's length.
#[inline]
pub fn field(body: &[u8], at: usize) -> u16 {
    u16::from_le_bytes([body[2 * at], body[2 * at + 1]])
}

/// A record as it was found; `body` is a refusal where the record is malformed.
#[derive(Clone, Copy, Debug)]
pub struct Record<'a> {
    pub kind: u16,
    pub body: Result<&'a [u8], Refusal>,
}

pub struct Reader<'a> {
    file: &'a [u8],
    at: usize,
}

impl<'a> Reader<'a> {
    pub fn new(file: &'a [u8]) -> Self {
        Reader { file, at: 0 }
    }

    /// Everything behind a record that is cut off belongs to it, so reading ends there.
    fn cut_off(&mut self, kind: u16) -> Record<'a> {
        let offset = self.at;
        self.at = self.file.len();
        Record {
            kind,
            body: Err(Refusal::malformed(offset)),
        }
    }
}

fn takes_length(kind: u16, length: usize) -> bool {
    match kind {
        1 | 4 | 9 => length == 4,
        2 | 5 => length == 2,
        3 => length == 6,
        6 => length == 0,
        7 => length >= 12 && length.is_multiple_of(2),
        8 => length.is_multiple_of(2),
        10 => length >= 8 && length.is_multiple_of(2),
        _ => false,
    }
}

impl<'a> Iterator for Reader<'a> {
    type Item = Record<'a>;

    #[inline]
    fn next(&mut self) -> Option<Record<'a>> {
        let rest = &self.file[self.at..];
        if rest.is_empty() {
            return None;
        }
        let Some((head, behind)) = rest.split_at_checked(HEAD) else {
            return Some(self.cut_off(0));
        };
        let (length, kind) = (field(head, 0) as usize, field(head, 1));
        let Some(body) = behind.get(..length) else {
            return Some(self.cut_off(kind));
        };
        let offset = self.at;
        self.at += HEAD + length;
        let body = if takes_length(kind, length) {
            Ok(body)
        } else {
            Err(Refusal::malformed(offset))
        };
        Some(Record { kind, body })
    }
}
