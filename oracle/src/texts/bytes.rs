//! Single bytes, blank runs, comments, class U and `#`.

use super::{up_to, Texts};

pub const BLANKS: &[&[u8]] = &[b"\t", b"\n", b"\x0c", b"\r", b" "];

pub fn ask(texts: &mut Texts) {
    every_byte(texts);
    blank_runs(texts);
    class_u(texts);
    line_comments(texts);
    block_comments(texts);
    hash(texts);
}

/// Byte classes: each byte alone and after a word.
fn every_byte(texts: &mut Texts) {
    for front in ["", "a"] {
        for byte in 0..=255 {
            texts.next([front.as_bytes(), &[byte]].concat());
        }
    }
}

/// A blank run: two blanks of any sort are one token, 0B ends the run.
fn blank_runs(texts: &mut Texts) {
    texts.rows(&[BLANKS, BLANKS]);
    texts.rows(&[BLANKS, &[b"\x0b", b"a", b"\x0b a"], BLANKS]);
    texts.each(&[" \t\n\x0c\r ", "a \n b", "\r\n\r\n"]);
}

/// Class U: a byte that starts nothing, on to each blank or the end; the offset is the run's end.
fn class_u(texts: &mut Texts) {
    for byte in 0..=255u8 {
        let starts_nothing = byte.is_ascii_control() || b"\\^{}".contains(&byte);
        if starts_nothing && !byte.is_ascii_whitespace() {
            for blank in BLANKS {
                texts.next([&[byte][..], b"a';1", blank, b"b"].concat());
            }
            texts.next([&[byte][..], b"(\x0b\x80"].concat());
            texts.next([b"1 ;", &[byte][..]].concat());
        }
    }
}

/// `--` to and with the next 0A, or to the end.
fn line_comments(texts: &mut Texts) {
    texts.rows(&[
        &[b"--", b"---", b"--/*'"],
        &[b"", b"x", b"\r", b"\n", b"x\n", b"x\r\n", b"\n\n", b"\n--"],
        &[b"", b"b"],
    ]);
    texts.each(&["- -", "a--b", "-->", "-- ;\n;", "--\x0b\n\x0b", "--*/\n*/"]);
}

/// `/*` to and with the next `*/` that begins after these two bytes, or to the end.
fn block_comments(texts: &mut Texts) {
    for body in up_to(3, &[b"*", b"/", b"a"]) {
        texts.next([b"/*", &body[..]].concat());
        texts.next([b"/*", &body[..], b"*/b"].concat());
    }
    texts.each(&["/* *", "/* * /", "/*\n*/\n", "/ *", "a/**/b", "/*--*/--", "/*'*/'"]);
}

/// `#` C* is TK_ILLEGAL, a token.
fn hash(texts: &mut Texts) {
    texts.rows(&[&[b"#", b"a#", b"##"], &[b"", b"a", b"1$", b"_", b"\xc3\xa9", b" a", b".", b"::a"]]);
}
