//! Where SQLite's tokenizer (3.40.1) gives something else than Next under `sqlite`, and what: the one list. Each is a row, or some, of
//! `docs/DIFFERENCES.md`, 'What the profile `sqlite` mends, and what it leaves', and is named there.

use super::codes::OWN_WORDS;
use super::Given::{self, Refused, Token};
use crate::second::{self, Answer, Profile};
use crate::token::TokenType::*;

pub struct Difference {
    pub name: &'static str,
    /// A shortest text that has it at its beginning.
    pub text: &'static [u8],
    /// What SQLite gives where what remains of the text, in which no zero byte is, has the difference, and Next gives what it then must.
    gives: fn(&[u8], Given) -> Option<Given>,
}

pub const DIFFERENCES: &[Difference] = &[
    // A zero byte ends the text for SQLite, before any other rule; `expected` sees to it.
    Difference { name: "zero byte", text: b"\0", gives: |_, _| None },
    Difference { name: "newline of a comment", text: b"--\n", gives: newline_of_comment },
    Difference { name: "comment at the end", text: b"/*", gives: comment_at_end },
    Difference { name: "0B in blanks", text: b" \x0b", gives: line_tab_in_blanks },
    Difference { name: "byte order mark", text: b"\xef\xbb\xbf", gives: byte_order_mark },
    Difference { name: "underscore in a number", text: b"1_0", gives: underscore_in_number },
    Difference { name: "name behind a number", text: b"1$", gives: name_behind_number },
    Difference { name: "span of a number", text: b"1a", gives: span_of_number },
    Difference { name: "underscore in hexadecimal", text: b"0x1_1", gives: underscore_in_hexadecimal },
    Difference { name: "name behind hexadecimal", text: b"0x1g", gives: name_behind_hexadecimal },
    Difference { name: "span of a blob", text: b"x'g", gives: span_of_blob },
    Difference { name: "span of stray bytes", text: b"{a", gives: span_of_stray },
    Difference { name: "closing bracket", text: b"]", gives: closing_bracket },
    Difference { name: "number sign", text: b"#", gives: number_sign },
    Difference { name: "0B in a parameter", text: b"$a(\x0b", gives: line_tab_in_parameter },
    Difference { name: "four words", text: b"TYPE", gives: four_words },
];

/// What Next gives under `sqlite`.
pub fn given(rest: &[u8]) -> Given {
    let lexeme = second::next(Profile::Sqlite, rest);
    match lexeme.answer {
        Answer::Token(kind) => Token(kind, lexeme.length),
        Answer::Refusal(_, start, length) => Refused(start, length),
        Answer::Stray => Refused(0, lexeme.length),
    }
}

/// What SQLite's tokenizer must give at the beginning of what remains, and the place in the list of the difference that says so.
pub fn expected(rest: &[u8]) -> (Given, Option<usize>) {
    let ours = given(rest);
    let seen = rest.split(|&byte| byte == 0).next().unwrap_or_default();
    if seen.is_empty() {
        return (Refused(0, 0), Some(0));
    }
    if seen.len() < rest.len() && given(seen) != ours {
        return (expected(seen).0, Some(0));
    }
    for (place, difference) in DIFFERENCES.iter().enumerate() {
        if let Some(theirs) = (difference.gives)(seen, ours).filter(|&theirs| theirs != ours) {
            return (theirs, Some(place));
        }
    }
    (ours, None)
}

fn run(rest: &[u8], is: impl Fn(u8) -> bool) -> usize {
    rest.iter().position(|&byte| !is(byte)).unwrap_or(rest.len())
}

fn is_name_byte(byte: u8) -> bool {
    byte.is_ascii_alphanumeric() || matches!(byte, b'_' | b'$') || byte > 0x7f
}

/// The blanks, and 0B.
fn is_space(byte: u8) -> bool {
    matches!(byte, 0x09..=0x0d | 0x20)
}

fn is_blank(byte: u8) -> bool {
    is_space(byte) && byte != 0x0b
}

fn newline_of_comment(rest: &[u8], ours: Given) -> Option<Given> {
    let line = run(rest, |byte| byte != b'\n');
    (rest.starts_with(b"--") && ours == Token(TK_NONE, line + 1)).then_some(Token(TK_NONE, line))
}

fn comment_at_end(rest: &[u8], ours: Given) -> Option<Given> {
    (rest == b"/*" && ours == Token(TK_NONE, 2)).then_some(Token(TK_SLASH, 1))
}

fn line_tab_in_blanks(rest: &[u8], ours: Given) -> Option<Given> {
    (ours == Token(TK_NONE, run(rest, is_blank))).then(|| Token(TK_NONE, run(rest, is_space)))
}

fn byte_order_mark(rest: &[u8], ours: Given) -> Option<Given> {
    let word = Token(TK_ID, run(rest, is_name_byte));
    (rest.starts_with(b"\xef\xbb\xbf") && ours == word).then_some(Token(TK_NONE, 3))
}

/// Digits, a dot and digits, `e`, sign and digits, and then every byte of a name: SQLite's number, which such a byte spoils.
fn number(rest: &[u8]) -> usize {
    let digits = |from: usize| from + run(&rest[from..], |byte| byte.is_ascii_digit());
    let mut end = digits(0);
    if rest.get(end) == Some(&b'.') {
        end = digits(end + 1);
    }
    let sign = match rest[end..] {
        [b'e' | b'E', b'+' | b'-', b'0'..=b'9', ..] => 2,
        [b'e' | b'E', b'0'..=b'9', ..] => 1,
        _ => 0,
    };
    end = digits(end + sign);
    end + run(&rest[end..], is_name_byte)
}

/// `0x` or `0X` and hexadecimal digits: where these end, if there is one.
fn hexadecimal(rest: &[u8]) -> Option<usize> {
    let behind = rest.strip_prefix(b"0x").or_else(|| rest.strip_prefix(b"0X"))?;
    let digits = run(behind, |byte| byte.is_ascii_hexdigit());
    (digits > 0).then_some(2 + digits)
}

fn is_decimal(rest: &[u8]) -> bool {
    matches!(rest, [b'0'..=b'9', ..] | [b'.', b'0'..=b'9', ..]) && hexadecimal(rest).is_none()
}

/// Whether an `_` is there, and each is between two such digits.
fn parted(number: &[u8], is: fn(&u8) -> bool) -> bool {
    let between = |place: usize| place > 0 && is(&number[place - 1]) && number.get(place + 1).is_some_and(is);
    let mut places = (0..number.len()).filter(|&place| number[place] == b'_').peekable();
    places.peek().is_some() && places.all(between)
}

fn underscore_in_number(rest: &[u8], ours: Given) -> Option<Given> {
    match ours {
        Token(TK_INTEGER | TK_FLOAT, length) if is_decimal(rest) && parted(&rest[..length], u8::is_ascii_digit) => {
            Some(Refused(0, number(rest)))
        }
        _ => None,
    }
}

/// A `$`, or after a dot without digits whatever starts a name but `e` and `E`.
fn name_behind_number(rest: &[u8], ours: Given) -> Option<Given> {
    let Token(TK_INTEGER | TK_FLOAT, length) = ours else { return None };
    let behind = match rest.get(length)? {
        b'$' => true,
        b'0'..=b'9' | b'e' | b'E' => false,
        &byte => is_name_byte(byte) && rest[length - 1] == b'.',
    };
    (behind && is_decimal(rest)).then(|| Refused(0, number(rest)))
}

/// SQLite's span is the whole number with the bytes of a name behind it.
fn span_of_number(rest: &[u8], ours: Given) -> Option<Given> {
    (is_decimal(rest) && matches!(ours, Refused(..))).then(|| Refused(0, number(rest)))
}

fn underscore_in_hexadecimal(rest: &[u8], ours: Given) -> Option<Given> {
    match ours {
        Token(TK_INTEGER, length) if parted(&rest[..length], u8::is_ascii_hexdigit) => {
            Some(Token(TK_INTEGER, hexadecimal(rest)?))
        }
        _ => None,
    }
}

/// Another start of a name than a hexadecimal digit, behind groups of these.
fn name_behind_hexadecimal(rest: &[u8], ours: Given) -> Option<Given> {
    let digits = hexadecimal(rest)?;
    let mut end = 2 + run(&rest[2..], |byte| byte.is_ascii_hexdigit() || byte == b'_');
    if !parted(&rest[..end], u8::is_ascii_hexdigit) {
        end = digits;
    }
    let behind = rest.get(end).is_some_and(|&byte| is_name_byte(byte) && byte != b'$');
    (behind && matches!(ours, Refused(..))).then_some(Token(TK_INTEGER, digits))
}

/// SQLite goes on to the next quote.
fn span_of_blob(rest: &[u8], ours: Given) -> Option<Given> {
    let body = rest.strip_prefix(b"x'").or_else(|| rest.strip_prefix(b"X'"))?;
    let digits = run(body, |byte| byte.is_ascii_hexdigit());
    let end = 2 + run(body, |byte| byte != b'\'');
    (ours == Refused(0, 2 + digits)).then(|| Refused(0, rest.len().min(end + 1)))
}

fn span_of_stray(rest: &[u8], ours: Given) -> Option<Given> {
    let stray = rest[0].is_ascii_control() || matches!(rest[0], b'\\' | b'^' | b'{' | b'}');
    (stray && ours == Refused(0, run(rest, |byte| !is_blank(byte)))).then_some(Refused(0, 1))
}

fn closing_bracket(rest: &[u8], ours: Given) -> Option<Given> {
    (rest[0] == b']' && ours == Token(TK_RBRACKET, 1)).then_some(Refused(0, 1))
}

/// `#` is one more sign of a parameter.
fn number_sign(rest: &[u8], ours: Given) -> Option<Given> {
    let behind = rest.strip_prefix(b"#")?;
    (ours == Token(TK_ILLEGAL, 1 + run(behind, is_name_byte))).then(|| expected(&[b"@", behind].concat()).0)
}

/// A 0B is a blank for SQLite here too: it ends the part, unless a `)` has.
fn line_tab_in_parameter(rest: &[u8], ours: Given) -> Option<Given> {
    let end = rest.iter().position(|&byte| byte == 0x0b)?;
    let opened = matches!(rest[0], b'$' | b'@' | b':') && given(&rest[..end]) == Refused(0, end);
    let part = opened && rest[..end].contains(&b'(');
    let close = end + run(&rest[end..], |byte| byte != b')' && !is_blank(byte));
    let must = if rest.get(close) == Some(&b')') { Token(TK_VARIABLE, close + 1) } else { Refused(0, close) };
    (part && ours == must).then_some(Refused(0, end))
}

fn four_words(rest: &[u8], ours: Given) -> Option<Given> {
    match ours {
        Token(kind, length) if OWN_WORDS.contains(&kind) && length == run(rest, is_name_byte) => {
            Some(Token(TK_ID, length))
        }
        _ => None,
    }
}
