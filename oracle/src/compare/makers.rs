//! Makers of texts that several modes use.

use super::random::Random;
use super::{lexemes, statements};
use crate::records::LONGEST_RECORD;

pub fn several_lexemes(r: &mut Random, text: &mut Vec<u8>) {
    for _ in 0..=r.below(8) {
        lexemes::any(r, text);
    }
}

pub fn good(r: &mut Random, text: &mut Vec<u8>) {
    if r.once_in(4) {
        statements::any(r, text);
    } else {
        several_lexemes(r, text);
    }
}

/// Inside the text, at its end, or past it.
pub fn offset(r: &mut Random, length: usize) -> usize {
    match r.below(32) {
        0 => length,
        1 => length + 1 + r.size(300),
        2 => (1 << 31) - 2 + r.below(4),
        3 => u32::MAX as usize - r.below(3),
        _ => r.below(length + 1),
    }
}

/// A buffer so long, a byte shorter or longer, of no byte, or of any other length.
pub fn room(r: &mut Random, length: usize) -> usize {
    match r.below(8) {
        0 => 0,
        1 | 2 => length.saturating_sub(1),
        3 | 4 => length,
        5 | 6 => length + 1,
        _ => r.size(40),
    }
}

/// Bytes that are to be between quotes: few, and many of them quotes.
pub fn value(r: &mut Random) -> Vec<u8> {
    (0..r.size(15)).map(|_| if r.once_in(2) { r.byte_of(b"''\"\"`]") } else { r.byte() }).collect()
}

/// A run that goes on for up to as many bytes as a record holds, between other lexemes.
pub fn long(r: &mut Random, text: &mut Vec<u8>) {
    several_lexemes(r, text);
    let length = r.size(LONGEST_RECORD);
    run(r, text, length);
    several_lexemes(r, text);
    text.truncate(LONGEST_RECORD);
}

/// As long as a record holds, or a byte shorter, which List takes, or two. The offset is near the start or the end, at the end
/// or past it: in each 24 texts every length has every sort of offset.
pub fn longest(index: u64, r: &mut Random, text: &mut Vec<u8>) -> usize {
    let length = LONGEST_RECORD - (index % 3) as usize;
    match r.below(4) {
        0 => (0..length).for_each(|_| text.push(r.byte_of(b"  \t\n"))),
        1 => run(r, text, length - 40),
        2 => {
            text.resize(length - 40, b' ');
            several_lexemes(r, text);
        }
        _ => text.resize(length, b';'),
    }
    while text.len() < length {
        lexemes::any(r, text);
    }
    text.truncate(length);
    match index / 3 % 8 {
        0 => 0,
        1 => 1 + r.below(3),
        2 => length,
        3 => length + 1,
        4 => u32::MAX as usize - r.below(2),
        _ => length - r.below(60),
    }
}

/// One lexeme with so many bytes inside.
fn run(r: &mut Random, text: &mut Vec<u8>, length: usize) {
    let (front, row, back): (&[u8], &[u8], &[u8]) = match r.below(9) {
        0 => (b"1", b"0123456789", b" "),
        1 => (b".1", b"0123456789", b"e5"),
        2 => (b"0x", b"0123456789abcdefABCDEF", b";"),
        3 => (b"a", b"abcXYZ_$019\x80\xff", b"."),
        4 => (b"'", b"ab \n\"`-/*\x00\xff", b"'"),
        5 => (b"/*", b"ab *\n'\"\x00\xff", b"*/"),
        6 => (b"--", b"ab *'\"/-\x00\xff", b"\n"),
        7 => (b" ", b" \t\n\x0c\r", b","),
        _ => (b"$a", b"ab1_$\x80", b"(b)"),
    };
    text.extend(front);
    (0..length).for_each(|_| text.push(r.byte_of(row)));
    text.extend(back);
}
