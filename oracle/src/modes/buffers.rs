//! The modes in which a program writes bytes into a lent buffer: literals read, and literals written. The whole buffer is printed as it is
//! afterwards, so that a byte that should have been left alone is seen.

use crate::literals::{
    hexadecimal, put, read_blob, read_integer, read_name, read_string, write_blob, write_integer, write_name,
    write_string, Bytes, Reads, Refusal,
};
use crate::spans;
use crate::walk::Source;
use std::fmt::Display;
use std::io::{self, Write};

/// Longer than any bytes of a record, written as a literal.
pub const LONGEST_WRITTEN: usize = 262_144;

/// What each byte of a buffer is beforehand.
const BEFORE: u8 = 0xff;

/// The span read as each kind of literal, whatever it is.
pub fn print_literal(source: Source, out: &mut impl Write, start: usize, record: &[u8]) -> io::Result<()> {
    let (span, room, text) = spans::read(start, record).expect("such a record is not taken");
    writeln!(out, "INTEGER\t{}", told(read_integer(source, text, span)))?;
    let calls: [(&str, Reads); 3] = [("STRING", read_string), ("NAME", read_name), ("BLOB", read_blob)];
    for (title, read) in calls {
        print_put(out, title, room, read(source, text, span))?;
    }
    writeln!(out)
}

/// The text's bytes as a string, a name and a blob, and the integer that it begins with.
pub fn print_write(out: &mut impl Write, room: usize, text: &[u8]) -> io::Result<()> {
    print_put(out, "STRING", room, Ok(write_string(text)))?;
    print_put(out, "NAME", room, Ok(write_name(text)))?;
    print_put(out, "BLOB", room, Ok(write_blob(text)))?;
    print_put(out, "INTEGER", room, Ok(write_integer(integer(text))))?;
    writeln!(out)
}

/// Eight bytes, lowest first, as two's complement; 0 where there are fewer.
pub fn integer(text: &[u8]) -> i64 {
    text.first_chunk().map_or(0, |bytes| i64::from_le_bytes(*bytes))
}

/// What comes of putting these bytes into a new buffer.
fn print_put(out: &mut impl Write, title: &str, room: usize, result: Bytes) -> io::Result<()> {
    let mut buffer = vec![BEFORE; room];
    let count = result.and_then(|bytes| put(&bytes, &mut buffer));
    let shown = if buffer.is_empty() { "-".to_string() } else { hexadecimal(&buffer) };
    writeln!(out, "{title}\t{}\t{shown}", told(count))
}

/// The number, or the refusal's name.
fn told(answer: Result<impl Display, Refusal>) -> String {
    match answer {
        Ok(number) => number.to_string(),
        Err(refusal) => format!("{refusal:?}"),
    }
}
