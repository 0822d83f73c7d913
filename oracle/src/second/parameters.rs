//! `?`, and `$`, `@` or `:` with a name.

use super::bytes::{at, is_blank, is_continue, is_digit, is_start, run};
use super::{Lexeme, Profile, UNRECOGNIZED};
use crate::token::TokenType::TK_VARIABLE;

/// A sign and what goes with it.
struct Named {
    /// The sign and the run of C bytes and `::` pairs behind it.
    length: usize,
    /// Whether that run is a name.
    name: bool,
    /// Whether that run is refused: no C in it.
    nameless: bool,
}

/// 01, legal lexemes: "`$`, `@` or `:` and a name. A name is a run of C bytes and `::` pairs with at least one C"; "After `:` it
/// begins with S or a pair." 01, malformed lexemes: "`$`, `@` alone or with pairs only; `:` with one or more pairs only".
/// Request 7: "`:` behaves as `@` does".
fn named(profile: Profile, rest: &[u8]) -> Option<Named> {
    let (&sign, behind) = rest.split_first()?;
    if !matches!(sign, b'$' | b'@' | b':') {
        return None;
    }
    let (mut length, mut has_continue) = (0, false);
    loop {
        let bytes = run(&behind[length..], is_continue);
        has_continue |= bytes > 0;
        length += bytes;
        if !behind[length..].starts_with(b"::") {
            break;
        }
        length += 2;
    }
    let colon = sign == b':' && profile == Profile::Turso;
    let begins = !colon || at(behind, 0, is_start) || behind.starts_with(b"::");
    Some(Named { length: 1 + length, name: has_continue && begins, nameless: !has_continue && begins })
}

/// A `(` directly after the name.
enum Part {
    None,
    /// Up to a `)`: the length with it.
    Closed(usize),
    /// Up to a blank or the end: the length before it.
    Open(usize),
}

/// 01: "then at most one `(`...`)` holding no `)` and no blank".
fn part(rest: &[u8], name: usize) -> Part {
    if rest.get(name) != Some(&b'(') {
        return Part::None;
    }
    let end = name + run(&rest[name..], |byte| byte != b')' && !is_blank(byte));
    match rest.get(end) {
        Some(b')') => Part::Closed(end + 1),
        _ => Part::Open(end),
    }
}

/// 01: "TK_VARIABLE: `?` D*", and the above.
pub fn parameter(profile: Profile, rest: &[u8]) -> Option<Lexeme> {
    if let Some(behind) = rest.strip_prefix(b"?") {
        return Lexeme::token(1 + run(behind, is_digit), TK_VARIABLE);
    }
    let Named { length, name: true, .. } = named(profile, rest)? else { return None };
    match part(rest, length) {
        Part::Closed(end) => Lexeme::token(end, TK_VARIABLE),
        _ => Lexeme::token(length, TK_VARIABLE),
    }
}

/// 01: "`$`, `@` alone or with pairs only; `:` with one or more pairs only; a name whose `(` part meets a blank or the end: 1, whole
/// span up to there."
pub fn bad_parameter(profile: Profile, rest: &[u8]) -> Option<Lexeme> {
    let Named { length, name, nameless } = named(profile, rest)?;
    match part(rest, length) {
        Part::Open(end) if name => Lexeme::refused(end, UNRECOGNIZED, 0, end),
        _ if nameless => Lexeme::refused(length, UNRECOGNIZED, 0, length),
        _ => None,
    }
}
