//! What begins with `0x` or `0X`.

use super::bytes::{at, group_start, groups, is_hexdigit, is_start};
use super::{Lexeme, Profile, BAD_NUMBER, MALFORMED_HEX};

fn behind_x(rest: &[u8]) -> Option<&[u8]> {
    rest.strip_prefix(b"0x").or_else(|| rest.strip_prefix(b"0X"))
}

/// 01, legal lexemes: "`0x` or `0X` H+ ( `_` H+ )*": the greatest length, 0 where the text does not begin so.
pub fn hex_integer(rest: &[u8]) -> usize {
    match behind_x(rest).map_or(0, |behind| groups(behind, is_hexdigit)) {
        0 => 0,
        digits => 2 + digits,
    }
}

/// 01, malformed lexemes: "`0x` (in this line `0X` too) with neither H nor `_` next: 6, (start, 2)."
pub fn no_hexdigit(_: Profile, rest: &[u8]) -> Option<Lexeme> {
    behind_x(rest)?;
    if at(rest, 2, |byte| is_hexdigit(byte) || byte == b'_') {
        return None;
    }
    Lexeme::refused(2, MALFORMED_HEX, 0, 2)
}

/// 01: "`0x_`: 3, length 0 after the `x`." The `_` belongs to the lexeme.
pub fn underscore_after_x(_: Profile, rest: &[u8]) -> Option<Lexeme> {
    behind_x(rest)?.strip_prefix(b"_")?;
    Lexeme::refused(3, BAD_NUMBER, 2, 0)
}

/// 01: "An `_` after a hex integer without H next: 3, from the last group through `_`."
pub fn hex_underscore(_: Profile, rest: &[u8]) -> Option<Lexeme> {
    let end = hex_integer(rest);
    if end == 0 || rest.get(end) != Some(&b'_') || at(rest, end + 1, is_hexdigit) {
        return None;
    }
    let from = group_start(rest, 2, end);
    Lexeme::refused(end + 1, BAD_NUMBER, from, end + 1 - from)
}

/// 01: "Hex integer and an S that is neither H nor `_`: 3, whole integer." The S belongs to the lexeme.
pub fn word_after_hex(_: Profile, rest: &[u8]) -> Option<Lexeme> {
    let end = hex_integer(rest);
    if end == 0 || !at(rest, end, |byte| is_start(byte) && !is_hexdigit(byte) && byte != b'_') {
        return None;
    }
    Lexeme::refused(end + 1, BAD_NUMBER, 0, end)
}
