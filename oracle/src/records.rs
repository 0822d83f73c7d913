//! Records, of standard input or made here: offset, length (4 bytes each, little-endian), then the text.

use std::io::{self, ErrorKind, Write};

/// The longest text of a record: one byte more than List takes.
pub const LONGEST_RECORD: usize = 65_536;

pub struct Records<R> {
    input: R,
    text: Vec<u8>,
}

pub enum Read<'a> {
    Record(usize, &'a [u8]),
    /// The input ended where a record would begin.
    Over,
    /// The record is longer than allowed, or the input ended inside it.
    Bad,
}

impl<R: io::Read> Records<R> {
    pub fn new(input: R) -> Self {
        let text = Vec::new();
        Records { input, text }
    }

    /// The next record; its text lies in a row that the following call uses again.
    pub fn read(&mut self) -> io::Result<Read<'_>> {
        let mut head = [0; 8];
        match fill(&mut self.input, &mut head)? {
            0 => return Ok(Read::Over),
            8 => {}
            _ => return Ok(Read::Bad),
        }
        let [offset, length] = [0, 4].map(|at| number(&head[at..at + 4]));
        if length > LONGEST_RECORD {
            return Ok(Read::Bad);
        }
        self.text.resize(length, 0);
        if fill(&mut self.input, &mut self.text)? < length {
            return Ok(Read::Bad);
        }
        Ok(Read::Record(offset, &self.text))
    }
}

/// Answers each record of the input; false after one that is too long or cut off, or that is not taken.
pub fn answer<R: io::Read, W: Write>(
    input: R,
    out: &mut W,
    takes: impl Fn(usize, &[u8]) -> bool,
    mut print: impl FnMut(&mut W, usize, &[u8]) -> io::Result<()>,
) -> io::Result<bool> {
    let mut records = Records::new(input);
    loop {
        match records.read()? {
            Read::Record(offset, text) if takes(offset, text) => print(out, offset, text)?,
            Read::Over => return Ok(true),
            Read::Record(..) | Read::Bad => {
                writeln!(out, "BADRECORD")?;
                return Ok(false);
            }
        }
    }
}

/// Takes every record.
pub fn all(_: usize, _: &[u8]) -> bool {
    true
}

/// Puts a record behind others.
pub fn push(records: &mut Vec<u8>, offset: usize, text: &[u8]) {
    for number in [offset, text.len()] {
        records.extend((number as u32).to_le_bytes());
    }
    records.extend(text);
}

fn number(bytes: &[u8]) -> usize {
    bytes.iter().rev().fold(0, |n, &b| n << 8 | usize::from(b))
}

/// Reads until the row is full or the input ends; gives the number of bytes read.
fn fill(input: &mut impl io::Read, row: &mut [u8]) -> io::Result<usize> {
    let mut filled = 0;
    while filled < row.len() {
        match input.read(&mut row[filled..]) {
            Ok(0) => break,
            Ok(n) => filled += n,
            Err(e) if e.kind() == ErrorKind::Interrupted => {}
            Err(e) => return Err(e),
        }
    }
    Ok(filled)
}
