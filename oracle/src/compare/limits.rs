//! Lexemes of every kind about as long as a stream takes, in parts of several sizes.

use super::families::Family;
use super::streams::{family, in_parts_of};
use crate::script::{push, Call};

/// What begins a lexeme, goes on with it as far as wanted, and ends it.
pub type Kind = (&'static [u8], &'static [u8], &'static [u8]);

const KINDS: &[Kind] = &[
    // Blanks, comments, words and what is like them.
    (b"", b" ", b""),
    (b"\n", b"\t \r", b"\x0c"),
    (b"--", b"a", b"\n"),
    (b"--", b"-'", b""),
    (b"/*", b"a", b"*/"),
    (b"/*", b"*", b"/"),
    (b"/*", b"/*", b""),
    (b"a", b"b", b""),
    (b"_", b"$1\xff", b""),
    (b"#", b"a", b""),
    (b"{", b"a", b""),
    (b"\x00", b"'{", b""),
    // Quoted.
    (b"'", b"a", b"'"),
    (b"'", b"''", b"'"),
    (b"'", b"a", b""),
    (b"'", b"''", b""),
    (b"\"", b"a", b"\""),
    (b"\"", b"\"\"", b"\""),
    (b"\"", b"a", b""),
    (b"`", b"a", b"`"),
    (b"`", b"``", b"`"),
    (b"`", b"a", b""),
    (b"[", b"a", b"]"),
    (b"[", b"[", b""),
    (b"x'", b"0f", b"'"),
    (b"X'", b"0", b""),
    (b"x'", b"0", b"g"),
    // Numbers.
    (b"", b"1", b""),
    (b"1", b"_0", b""),
    (b"0x", b"f", b""),
    (b"0X0", b"_f", b""),
    (b"", b"1", b"."),
    (b".", b"1", b""),
    (b"1.", b"5", b""),
    (b"", b"5", b".5"),
    (b"", b"1", b"e5"),
    (b"", b"1", b".e-5"),
    (b"1e", b"5", b""),
    (b"1.5E+", b"5", b""),
    (b".5e", b"5_0", b""),
    (b"1e_", b"5", b""),
    // Malformed numbers.
    (b"", b"1", b"a"),
    (b"", b"1", b"_"),
    (b"", b"1", b"_x"),
    (b"", b"1", b"__"),
    (b".", b"5", b"a"),
    (b"1.", b"5", b"x"),
    (b"1.", b"5", b"_"),
    (b"", b"1", b"e"),
    (b"", b"1", b"e+"),
    (b"", b"1", b"e_"),
    (b"", b"1", b".e-_"),
    (b"1e", b"5", b"a"),
    (b"1e", b"5", b"e"),
    (b"1e", b"5", b"_"),
    (b"0x", b"f", b"g"),
    (b"0x", b"f", b"_"),
    (b"0x", b"f", b"_g"),
    // Parameters.
    (b"?", b"1", b""),
    (b"$", b"a", b""),
    (b"$", b"a", b":"),
    (b"$", b"a", b":("),
    (b"$", b"a", b":a"),
    (b"$", b"a", b"::"),
    (b"$", b"a", b":::("),
    (b"@", b"a", b""),
    (b":", b"a", b""),
    (b":", b"1", b""),
    (b"$", b"::", b""),
    (b"@", b"::", b"a"),
    (b":::", b"::", b""),
    (b"$a", b"::a", b""),
    (b"$a(", b"b", b")"),
    (b"$", b"a", b"(b)"),
    (b"$", b"a", b"("),
    (b"@a(", b"b", b""),
    (b":a(", b"(", b" )"),
];
const SHORTEST: usize = 2_046;
const LENGTHS: usize = 7;
/// How long the first part is, and the others.
const PARTS: [(usize, usize); 7] = [(2_040, 1), (2_046, 2), (1, 244), (1, 1), (2_048, 2_048), (2_049, 3), (4_096, 1)];

/// Every kind with every length, twice or more often, each time in other parts.
pub fn limits<'a>(most: u64) -> Family<'a> {
    let all = (KINDS.len() * LENGTHS) as u64;
    family("limits", all * (most / all).max(2), |index, r, script| {
        let (kind, turn) = (index as usize % KINDS.len(), index as usize / KINDS.len());
        let (length, turn) = (turn % LENGTHS, turn / LENGTHS);
        let mut text = r.pick::<[u8]>(&[b"", b"b;"]).to_vec();
        write(KINDS[kind], SHORTEST + length, &mut text);
        text.extend(r.pick::<[u8]>(&[b"", b";", b" a", b"'1_"]));
        let (first, size) = PARTS[(kind + length + turn) % PARTS.len()];
        let (first, others) = text.split_at(first.min(text.len()));
        push(script, Call::Part(first));
        in_parts_of(size, others, script);
        (0..4).for_each(|_| push(script, Call::Finish));
    })
    .in_pieces_of(100)
}

/// A lexeme of this kind that is so long.
pub fn write((front, middle, back): Kind, length: usize, text: &mut Vec<u8>) {
    text.extend(front);
    text.extend(middle.iter().cycle().take(length - front.len() - back.len()));
    text.extend(back);
}
