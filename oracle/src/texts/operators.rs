//! Operators, alone and beside a neighbour, and `!`.

use super::Texts;

const ONE_BYTE: &[&[u8]] =
    &[b"(", b")", b";", b"+", b"*", b"%", b",", b"~", b"[", b"]", b"-", b"/", b"<", b">", b"|", b"&", b".", b":", b"="];

const LONGER: &[&[u8]] = &[b"->", b"->>", b"==", b"<=", b"<<", b"<>", b">=", b">>", b"!=", b"||", b"&&", b"@>"];

/// Bytes that some operator or comment has in second or third place, and two that a number or name makes longer.
const CONTINUING: &[&[u8]] = &[b"-", b"/", b"*", b"<", b">", b"|", b"&", b"=", b".", b":"];

const NEIGHBOURS: &[&[u8]] = &[b"a", b"1", b" ", b"'s'", b"!"];

pub fn ask(texts: &mut Texts) {
    for operators in [ONE_BYTE, LONGER] {
        // Each kind, and the longest match where two stand together.
        texts.rows(&[operators]);
        texts.rows(&[operators, CONTINUING]);
        texts.rows(&[operators, NEIGHBOURS]);
        texts.rows(&[NEIGHBOURS, operators]);
    }
    refused(texts);
}

/// Refusal 7: `!` with no `=` behind it.
fn refused(texts: &mut Texts) {
    texts.rows(&[&[b"!", b"a!", b"!=!", b" !"], &[b"", b"!", b"a", b" ", b"<", b"= ", b"\x00", b"\xff"]]);
}
