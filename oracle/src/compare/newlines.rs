//! Texts rich in the byte 0A, which ends a line: inside every sort of lexeme that may hold it, between lexemes, and before the offset.

use super::families::Family;
use super::random::Random;
use super::{lexemes, makers};
use crate::list::WIDTH;
use crate::modes::Mode;

/// What begins a lexeme that may hold a 0A, and what ends it. Under `turso` a bracket is a lexeme of its own, and the 0A behind it a blank.
const HOLDERS: &[(&[u8], &[u8])] = &[
    (b"'", b"'"),
    (b"\"", b"\""),
    (b"`", b"`"),
    (b"[", b"]"),
    (b"/*", b"*/"),
    (b"/*\n", b"\n*/"),
    (b"--", b"\n"),
    (b"--", b"\r\n"),
    (b"\n", b"\n"),
];
/// A line ends with 0A, alone or behind 0D. What else may be taken for an end is none: 0D, 0C, and C2 85 in UTF-8.
const ENDS: &[&[u8]] =
    &[b"\n", b"\n", b"\n", b"\n", b"\n\n", b"\r\n", b"\r\n\r\n", b"\n\r", b"\r", b"\x0c", b"\xc2\x85"];
const INSIDE: &[u8] = b"ab -\r\x85\xff";

/// The small alphabets, each with 0A among what it may stand in.
const ALPHABETS: &[(&str, &[u8])] =
    &[("quoted lines", b"\n'\"a"), ("commented lines", b"\n-/*a"), ("bracketed lines", b"\n[]\ra")];

/// Lists of several lengths are had, and starting the program costs little.
const PIECE: u64 = 5_000;

pub fn families<'a>(share: u64, seed: u64) -> Vec<Family<'a>> {
    // Room for most of the records, for all of a short text's.
    let most = |piece| Mode::List(10 * WIDTH + piece as usize % (10 * WIDTH));
    let all = |_| Mode::List(8 * WIDTH);
    let random = Family::new("list: newlines", most, share, |_, r, text| any(r, text));
    let mut families = vec![random.in_pieces_of(PIECE)];
    let every = |&(name, alphabet): &(&str, &'a [u8])| {
        Family::every(&format!("list: {name}"), all, alphabet, share / 2, seed, true)
    };
    families.extend(ALPHABETS.iter().map(every));
    families
}

/// Lexemes and ends of lines, and an offset.
pub fn any(r: &mut Random, text: &mut Vec<u8>) -> usize {
    several(r, text);
    offset(r, text)
}

/// Ends of lines at the text's beginning and end, and lexemes between them that hold some or none.
fn several(r: &mut Random, text: &mut Vec<u8>) {
    ends(r, text);
    for _ in 0..=r.below(8) {
        match r.below(8) {
            0 => lexemes::any(r, text),
            1 => lexemes::keyword(r, text),
            2 => text.extend(r.pick::<[u8]>(&[b";", b",", b"a", b"1", b"''"])),
            _ => held(r, text),
        }
        ends(r, text);
    }
}

/// None, a few, or now and then a run.
fn ends(r: &mut Random, text: &mut Vec<u8>) {
    if r.once_in(32) {
        return (0..r.size(300)).for_each(|_| text.push(b'\n'));
    }
    (0..r.below(3)).for_each(|_| text.extend(r.pick(ENDS)));
}

/// A lexeme with ends of lines inside, at its beginning and end too.
fn held(r: &mut Random, text: &mut Vec<u8>) {
    let (front, back) = HOLDERS[r.below(HOLDERS.len())];
    text.extend(front);
    for _ in 0..r.below(4) {
        ends(r, text);
        (0..r.below(4)).for_each(|_| text.push(r.byte_of(INSIDE)));
    }
    ends(r, text);
    // Seldom unclosed, since a refusal ends the walk.
    if !r.once_in(32) {
        text.extend(back);
    }
}

/// The beginning, behind the text so far, which gets more lexemes, or any.
fn offset(r: &mut Random, text: &mut Vec<u8>) -> usize {
    match r.below(4) {
        0 => 0,
        1 | 2 => {
            let from = text.len();
            several(r, text);
            from
        }
        _ => makers::offset(r, text.len()),
    }
}
