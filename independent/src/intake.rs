//! A whole file handed to a new docket, and what is printed of it.

use crate::docket::Docket;
use crate::reader::Reader;

/// How much a program reads, and how large a docket it opens.
#[derive(Clone, Copy, Debug)]
pub struct Size {
    pub bytes: usize,
    pub concepts: usize,
    pub lines: usize,
}

pub const NARROW: Size = Size {
    bytes: 16_384,
    concepts: 256,
    lines: 256,
};

pub const WIDE: Size = Size {
    bytes: 4 << 20,
    concepts: 1024,
    lines: 4096,
};

/// What the program prints for a file; what lies behind the size's bytes is not looked at.
pub fn report(file: &[u8], size: Size) -> Vec<u8> {
    let file = &file[..file.len().min(size.bytes)];
    let mut docket = Docket::new(size.concepts, size.lines);
    let mut out = Vec::with_capacity(file.len() * 2 + 64);
    for (index, record) in (1..).zip(Reader::new(file)) {
        let mut line = Line::new();
        match record.body.and_then(|body| docket.take(record.kind, body)) {
            Ok(entry) => {
                line.number(entry);
                line.text(b" ok ");
            }
            Err(refusal) => {
                line.number(refusal.place);
                line.text(b" ");
                line.number(u32::from(refusal.number));
                line.text(b" refused ");
            }
        }
        line.number(u32::from(record.kind));
        line.text(b" ");
        line.number(index);
        out.extend_from_slice(line.bytes());
    }
    let tally = docket.tally();
    let mut line = Line::new();
    line.number(tally.inhabited as u32);
    line.text(b" ");
    line.number(tally.empty as u32);
    line.text(b" ");
    line.number(tally.open as u32);
    line.text(b"end ");
    out.extend_from_slice(line.bytes());
    out
}

/// A line of the report, written from its end, as the digits of a number come from the last to the first. By hand, since
/// the formatting machinery costs more than most records.
struct Line {
    bytes: [u8; Line::LENGTH],
    at: usize,
}

impl Line {
    /// Room for four numbers of ten digits and the longest words.
    const LENGTH: usize = 64;

    fn new() -> Self {
        let mut bytes = [0; Line::LENGTH];
        bytes[Line::LENGTH - 1] = b'\n';
        Line {
            bytes,
            at: Line::LENGTH - 1,
        }
    }

    #[inline]
    fn number(&mut self, mut number: u32) {
        loop {
            self.at -= 1;
            self.bytes[self.at] = b'0' + (number % 10) as u8;
            number /= 10;
            if number == 0 {
                break;
            }
        }
    }

    #[inline]
    fn text<const LENGTH: usize>(&mut self, text: &[u8; LENGTH]) {
        self.at -= LENGTH;
        self.bytes[self.at..self.at + LENGTH].copy_from_slice(text);
    }

    fn bytes(&self) -> &[u8] {
        &self.bytes[self.at..]
    }
}
