//! Next stated a second time, under both profiles, from the sentences of document 01 (here 01) and request 7: each class is a function of its
//! own, from what remains of the text to the greatest length at which an opening of it stands in the class. Next is the longest of them
//! all. It shares no code with the published lexer but the lookup of a word's kind. Its classes are those of `docs/CLASSES.md`.

mod bytes;
mod hexadecimal;
mod numbers;
mod parameters;
mod plain;
mod quoted;

use crate::token::TokenType;
use std::cmp::Ordering;

#[derive(Clone, Copy, PartialEq, Eq, Hash)]
pub enum Profile {
    /// Document 01, as the published lexer has it.
    Turso,
    /// Request 7.
    Sqlite,
}

impl Profile {
    pub fn read(word: &str) -> Option<Self> {
        match word {
            "turso" => Some(Profile::Turso),
            "sqlite" => Some(Profile::Sqlite),
            _ => None,
        }
    }
}

/// What a class answers of a lexeme.
#[derive(Clone, Copy)]
pub enum Answer {
    Token(TokenType),
    /// The refusal's name, and where in the lexeme the span starts, and its length. The offset stays at the lexeme's start.
    Refusal(&'static str, usize, usize),
    /// Class U: refused with the whole span, and the offset is its end.
    Stray,
}

// Document 01, 'Refusal numbers', 1 to 7.
pub const UNRECOGNIZED: &str = "UnrecognizedToken";
const UNTERMINATED: &str = "UnterminatedLiteral";
const BAD_NUMBER: &str = "BadNumber";
const BAD_FRACTION: &str = "BadFractionalPart";
const BAD_EXPONENT: &str = "BadExponentPart";
const MALFORMED_HEX: &str = "MalformedHexInteger";
const EXPECTED_EQUALS: &str = "ExpectedEqualsSign";

/// An opening that stands in a class.
#[derive(Clone, Copy)]
pub struct Lexeme {
    pub length: usize,
    pub answer: Answer,
}

impl Lexeme {
    fn token(length: usize, kind: TokenType) -> Option<Self> {
        Some(Lexeme { length, answer: Answer::Token(kind) })
    }

    fn refused(length: usize, name: &'static str, start: usize, span: usize) -> Option<Self> {
        Some(Lexeme { length, answer: Answer::Refusal(name, start, span) })
    }
}

pub type Class = fn(Profile, &[u8]) -> Option<Lexeme>;

pub const CLASSES: [Class; 27] = [
    plain::blank_run,
    plain::line_comment,
    plain::block_comment,
    plain::operator,
    quoted::string,
    quoted::quoted_name,
    numbers::integer,
    numbers::float,
    quoted::blob,
    parameters::parameter,
    plain::word,
    plain::illegal,
    plain::unrecognized,
    plain::bang,
    quoted::open_quote,
    quoted::open_blob,
    quoted::odd_blob,
    parameters::bad_parameter,
    numbers::underscore,
    numbers::word_after_integer,
    numbers::word_after_fraction,
    numbers::no_exponent,
    numbers::word_after_exponent,
    hexadecimal::no_hexdigit,
    hexadecimal::underscore_after_x,
    hexadecimal::hex_underscore,
    hexadecimal::word_after_hex,
];

/// How much of a text without a class, or with two, is shown.
const SHOWN: usize = 60;

/// The longest lexeme that begins what remains, which is not empty, with the place of its class. It stands in exactly one, or the
/// program stops.
pub fn longest(profile: Profile, rest: &[u8]) -> (usize, Lexeme) {
    let (mut longest, mut classes) = (None::<(usize, Lexeme)>, 0);
    for (place, class) in CLASSES.iter().enumerate() {
        let Some(lexeme) = class(profile, rest) else { continue };
        match lexeme.length.cmp(&longest.map_or(0, |(_, longest)| longest.length)) {
            Ordering::Greater => (longest, classes) = (Some((place, lexeme)), 1),
            Ordering::Equal => classes += 1,
            Ordering::Less => {}
        }
    }
    let shown = rest[..rest.len().min(SHOWN)].escape_ascii();
    assert_eq!(classes, 1, "so many classes have the longest lexeme of: {shown}");
    longest.expect("a class has it")
}

pub fn next(profile: Profile, rest: &[u8]) -> Lexeme {
    longest(profile, rest).1
}
