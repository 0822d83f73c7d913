//! What looks like a lexeme of each class: good ones more often than bad ones, since a refusal ends the walk.

use super::random::Random;
use crate::texts::keywords;
use std::sync::LazyLock;

type Text = Vec<u8>;

pub static KEYWORDS: LazyLock<Vec<Vec<u8>>> = LazyLock::new(keywords);

const OPERATORS: &[&[u8]] = &[
    b"-", b"->", b"->>", b"(", b")", b";", b"+", b"*", b"/", b"%", b"=", b"==", b"<", b"<=", b"<<", b"<>", b">", b">=",
    b">>", b"!=", b"|", b"||", b",", b"&", b"&&", b"~", b".", b"[", b"]", b"@>", b":",
];
const BLANKS: &[u8] = b" \t\n\x0c\r";
const DECIMAL: &[u8] = b"0123456789";
const HEX: &[u8] = b"0123456789abcdefABCDEF";
const NAME: &[u8] = b"abcdefxXyzEST_$0123456789\x80\xc3\xa9\xff";
const START: &[u8] = b"abexXyzEST_\xc3\xff";
/// No blank, and nothing that starts a lexeme.
const STRAY: &[u8] = b"\x00\x01\x08\x0b\x0e\x1f\\^{}\x7f";
const BODY: &[u8] = b"ab 1\n'\"`*/-:;()[]\x00\x0b\x80\xff";

pub fn any(r: &mut Random, text: &mut Text) {
    match r.below(40) {
        0..=6 => blanks(r, text),
        7..=13 => text.extend(r.pick(OPERATORS)),
        14..=19 => number(r, text),
        20..=22 => quoted(r, text),
        23..=24 => blob(r, text),
        25..=28 => parameter(r, text),
        29..=30 => comment(r, text),
        31..=34 => keyword(r, text),
        35..=37 => name(r, text),
        38 => run(r, text, b"#", 4, NAME),
        _ => odd(r, text),
    }
}

pub fn blanks(r: &mut Random, text: &mut Text) {
    let n = 1 + r.size(3);
    run(r, text, b"", n, BLANKS);
}

/// The front, then up to most bytes of the row.
fn run(r: &mut Random, text: &mut Text, front: &[u8], most: usize, row: &[u8]) {
    text.extend(front);
    for _ in 0..r.below(most + 1) {
        text.push(r.byte_of(row));
    }
}

/// Digits in groups parted by `_`, now and then with one `_` that stands wrong.
fn groups(r: &mut Random, text: &mut Text, row: &[u8]) {
    for group in 0..=r.size(3) {
        if group > 0 {
            text.push(b'_');
        }
        let first = r.byte_of(row);
        run(r, text, &[first], 3, row);
    }
    if r.once_in(24) {
        let place = text.len() - r.below(3).min(text.len());
        text.insert(place, b'_');
    }
}

pub fn number(r: &mut Random, text: &mut Text) {
    match r.below(8) {
        0 => {
            text.extend(r.pick::<[u8]>(&[b"0x", b"0X"]));
            groups(r, text, HEX);
        }
        1 => {
            text.push(b'.');
            groups(r, text, DECIMAL);
            exponent(r, text);
        }
        2..=4 => groups(r, text, DECIMAL),
        _ => {
            groups(r, text, DECIMAL);
            text.push(b'.');
            if !r.once_in(3) {
                groups(r, text, DECIMAL);
            }
            exponent(r, text);
        }
    }
    if r.once_in(24) {
        text.push(r.byte_of(b"aegx_$\xc3"));
    }
}

fn exponent(r: &mut Random, text: &mut Text) {
    if r.once_in(2) {
        return;
    }
    text.push(r.byte_of(b"eE"));
    text.extend(r.pick::<[u8]>(&[b"", b"", b"+", b"-", b"_"]));
    if !r.once_in(16) {
        groups(r, text, DECIMAL);
    }
}

pub fn quoted(r: &mut Random, text: &mut Text) {
    let quote = r.byte_of(b"''\"`");
    text.push(quote);
    for _ in 0..r.size(12) {
        let b = r.byte_of(BODY);
        text.push(b);
        if b == quote && !r.once_in(8) {
            text.push(quote);
        }
    }
    if !r.once_in(24) {
        text.push(quote);
    }
}

pub fn blob(r: &mut Random, text: &mut Text) {
    text.extend(r.pick::<[u8]>(&[b"x'", b"X'"]));
    for _ in 0..r.size(6) {
        text.push(r.byte_of(HEX));
        text.push(r.byte_of(HEX));
    }
    match r.below(24) {
        0 => text.push(r.byte_of(HEX)),
        1 => text.push(r.byte_of(b"g \"_")),
        2 => return,
        _ => {}
    }
    text.push(b'\'');
}

/// `?` and digits; or a sign, names and `::` pairs in any order, and perhaps `(`..`)`.
pub fn parameter(r: &mut Random, text: &mut Text) {
    if r.once_in(4) {
        return run(r, text, b"?", 4, DECIMAL);
    }
    text.push(r.byte_of(b"$@:"));
    for _ in 0..=r.size(4) {
        match r.below(12) {
            0..=7 => run(r, text, b"a", 3, NAME),
            8..=10 => text.extend(b"::"),
            _ => text.push(b':'),
        }
    }
    if r.once_in(3) {
        run(r, text, b"(", 4, b"ab1:$(,'\x0b\xff-");
        text.extend(r.pick::<[u8]>(&[b")", b")", b")", b")", b")", b" )", b""]));
    }
}

pub fn comment(r: &mut Random, text: &mut Text) {
    if r.once_in(2) {
        run(r, text, b"--", 8, b"ab -'\"*/\r\x00\xff");
        text.extend(r.pick::<[u8]>(&[b"\n", b"\n", b"\n", b"\n", b"\r\n", b""]));
    } else {
        run(r, text, b"/*", 8, b"ab -'\"**//\n\x00\xff");
        text.extend(r.pick::<[u8]>(&[b"*/", b"*/", b"*/", b"*/", b"**/", b"*", b""]));
    }
}

/// A word of the list in any letters, now and then with one byte changed, dropped or added.
pub fn keyword(r: &mut Random, text: &mut Text) {
    let start = text.len();
    text.extend(&KEYWORDS[r.below(KEYWORDS.len())]);
    spell(r, &mut text[start..]);
    let place = start + r.below(text.len() - start);
    match r.below(16) {
        0 => text[place] = r.byte_of(NAME),
        1 => text[place] ^= 1 << r.below(8),
        2 => drop(text.remove(place)),
        3 => text.insert(place, r.byte_of(NAME)),
        _ => {}
    }
}

/// The word in capitals, small letters, or both.
pub fn spell(r: &mut Random, word: &mut [u8]) {
    match r.below(4) {
        0 => word.make_ascii_lowercase(),
        1 => word.make_ascii_uppercase(),
        _ => word.iter_mut().filter(|b| b.is_ascii_alphabetic() && r.once_in(2)).for_each(|b| *b ^= 0x20),
    }
}

pub fn name(r: &mut Random, text: &mut Text) {
    let (first, most) = (r.byte_of(START), r.size(20));
    run(r, text, &[first], most, NAME);
}

fn odd(r: &mut Random, text: &mut Text) {
    match r.below(8) {
        0 => text.push(r.byte_of(STRAY)),
        1 => text.push(b'!'),
        2 => text.push(r.byte()),
        3 => text.push(r.byte_of(b"$@")),
        _ => text.extend(r.pick::<[u8]>(&[b"::", b":::a", b"1.a", b"x ", b"X\"", b"-->", b"/*/", b"<=>", b"&&&"])),
    }
}
