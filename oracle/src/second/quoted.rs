//! Strings, quoted names and blobs.

use super::bytes::{is_hexdigit, run};
use super::{Lexeme, Profile, UNRECOGNIZED, UNTERMINATED};
use crate::token::TokenType::{TK_BLOB, TK_ID, TK_STRING};

/// The quotes at which `quote` body `quote` ends, with that quote only doubled in the body: the greatest such length, and whether
/// a body goes on to the end of the text with no quote to close it.
struct Quoted {
    closed: Option<usize>,
    open: bool,
}

fn quoted(quote: u8, rest: &[u8]) -> Option<Quoted> {
    if rest.first() != Some(&quote) {
        return None;
    }
    let (mut closed, mut place) = (None, 1);
    while let Some(next) = rest[place..].iter().position(|&byte| byte == quote) {
        closed = Some(place + next + 1);
        if rest.get(place + next + 1) != Some(&quote) {
            return Some(Quoted { closed, open: false });
        }
        place += next + 2;
    }
    Some(Quoted { closed, open: true })
}

/// Request 7: "`[` up to the first `]` is TK_ID, unclosed is UnterminatedLiteral to the end". Nothing is doubled.
fn bracketed(profile: Profile, rest: &[u8]) -> Option<Quoted> {
    if profile == Profile::Turso || !rest.starts_with(b"[") {
        return None;
    }
    let closed = rest.iter().position(|&byte| byte == b']').map(|place| place + 1);
    Some(Quoted { closed, open: closed.is_none() })
}

/// 01, legal lexemes: "`'` body `'` TK_STRING", "In the body that quote appears only doubled."
pub fn string(_: Profile, rest: &[u8]) -> Option<Lexeme> {
    Lexeme::token(quoted(b'\'', rest)?.closed?, TK_STRING)
}

/// 01: "with `"` or a backtick TK_ID". Under `sqlite` with brackets too.
pub fn quoted_name(profile: Profile, rest: &[u8]) -> Option<Lexeme> {
    let name = quoted(b'"', rest).or_else(|| quoted(b'`', rest)).or_else(|| bracketed(profile, rest))?;
    Lexeme::token(name.closed?, TK_ID)
}

/// 01, malformed lexemes: "A quote and body never closed: 2", whole span. Under `sqlite` a bracket too.
pub fn open_quote(profile: Profile, rest: &[u8]) -> Option<Lexeme> {
    let quote = [b'\'', b'"', b'`'].into_iter().find_map(|quote| quoted(quote, rest));
    if !quote.or_else(|| bracketed(profile, rest))?.open {
        return None;
    }
    Lexeme::refused(rest.len(), UNTERMINATED, 0, rest.len())
}

/// `x'` or `X'` and H*: its length, how many H, and whether a quote follows.
fn hex_body(rest: &[u8]) -> Option<(usize, usize, bool)> {
    let body = rest.strip_prefix(b"x'").or_else(|| rest.strip_prefix(b"X'"))?;
    let digits = run(body, is_hexdigit);
    Some((2 + digits, digits, body.get(digits) == Some(&b'\'')))
}

/// 01, legal lexemes: "TK_BLOB: `x` or `X`, `'`, an even number of H, `'`."
pub fn blob(_: Profile, rest: &[u8]) -> Option<Lexeme> {
    match hex_body(rest)? {
        (length, digits, true) if digits % 2 == 0 => Lexeme::token(length + 1, TK_BLOB),
        _ => None,
    }
}

/// 01, malformed lexemes: "`x'` (or `X'`) H* with no quote after it: 2", whole span.
pub fn open_blob(_: Profile, rest: &[u8]) -> Option<Lexeme> {
    match hex_body(rest)? {
        (length, _, false) => Lexeme::refused(length, UNTERMINATED, 0, length),
        _ => None,
    }
}

/// 01: "Odd number of H, closed: 1. Whole span."
pub fn odd_blob(_: Profile, rest: &[u8]) -> Option<Lexeme> {
    match hex_body(rest)? {
        (length, digits, true) if digits % 2 == 1 => Lexeme::refused(length + 1, UNRECOGNIZED, 0, length + 1),
        _ => None,
    }
}
