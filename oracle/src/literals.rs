//! Literals read and written, stated from request 2's sentences over Next, whoever gives it. Values and texts are had from Rust's own
//! parsing, formatting and replacing, so that no digit and no quote is counted here.

use crate::spans::Span;
use crate::token::TokenType::{self, TK_BLOB, TK_ID, TK_INTEGER, TK_STRING};
use crate::walk::{next, Source};
use std::num::IntErrorKind::PosOverflow;

/// "11 NotThatLiteral, 12 OutOfRange, 13 NoRoom".
#[derive(Clone, Copy, Debug, PartialEq, Eq)]
pub enum Refusal {
    NotThatLiteral,
    OutOfRange,
    NoRoom,
}

use Refusal::{NoRoom, NotThatLiteral, OutOfRange};

pub type Bytes = Result<Vec<u8>, Refusal>;

/// A call that gives bytes, but for the buffer.
pub type Reads = fn(Source, &[u8], Span) -> Bytes;

/// "A span that isn't exactly what Next gives at its start, of that kind, is refused." Next gives nothing past the end.
fn lexeme(kind: TokenType, source: Source, text: &[u8], span: Span) -> Result<&[u8], Refusal> {
    if span.start > text.len() || next(source, text, span.start).ok() != Some((kind, span.length)) {
        return Err(NotThatLiteral);
    }
    Ok(&text[span.start..][..span.length])
}

/// "From a TK_INTEGER span: decimal up to 9,223,372,036,854,775,807; hexadecimal up to 64 bits, leading zeros not counted, taken as two's
/// complement, so sixteen F's are -1; underscores skipped."
pub fn read_integer(source: Source, text: &[u8], span: Span) -> Result<i64, Refusal> {
    let digits = characters(lexeme(TK_INTEGER, source, text, span)?).replace('_', "");
    let value = match digits.strip_prefix("0x").or(digits.strip_prefix("0X")) {
        Some(digits) => u64::from_str_radix(digits, 16).map(|value| value as i64),
        None => digits.parse::<i64>(),
    };
    value.map_err(|error| {
        assert_eq!(error.kind(), &PosOverflow, "an integer has something but digits: {digits}");
        OutOfRange
    })
}

/// "From TK_STRING and quoted TK_ID: the bytes with doubled quotes made single".
pub fn read_string(source: Source, text: &[u8], span: Span) -> Bytes {
    lexeme(TK_STRING, source, text, span).map(single)
}

/// Request 7: "request 2 reads `[name]` as its inner bytes". A bare word is a TK_ID too, but no quoted one.
pub fn read_name(source: Source, text: &[u8], span: Span) -> Bytes {
    match lexeme(TK_ID, source, text, span)? {
        [b'[', inner @ .., b']'] => Ok(inner.to_vec()),
        quoted @ [b'"' | b'`', ..] => Ok(single(quoted)),
        _ => Err(NotThatLiteral),
    }
}

/// "From TK_BLOB: its bytes": two digits are one.
pub fn read_blob(source: Source, text: &[u8], span: Span) -> Bytes {
    let blob = characters(lexeme(TK_BLOB, source, text, span)?);
    let digits = blob.split('\'').nth(1).expect("a blob has quotes");
    let byte = |place| u8::from_str_radix(&digits[place..place + 2], 16).expect("a blob has digits in pairs");
    Ok((0..digits.len()).step_by(2).map(byte).collect())
}

/// What stands between the quotes, doubled ones made single.
fn single(quoted: &[u8]) -> Vec<u8> {
    let (quote, inner) = (characters(&quoted[..1]), characters(&quoted[1..quoted.len() - 1]));
    bytes(&inner.replace(&quote.repeat(2), &quote))
}

/// "Bytes to a string literal".
pub fn write_string(value: &[u8]) -> Vec<u8> {
    quoted("'", value)
}

/// The same for a name.
pub fn write_name(value: &[u8]) -> Vec<u8> {
    quoted("\"", value)
}

pub fn quoted(quote: &str, value: &[u8]) -> Vec<u8> {
    bytes(&format!("{quote}{}{quote}", characters(value).replace(quote, &quote.repeat(2))))
}

/// "A blob (small `x`, H in capitals)".
pub fn write_blob(value: &[u8]) -> Vec<u8> {
    format!("x'{}'", hexadecimal(value)).into_bytes()
}

/// "An integer to decimal, a negative one to `0x` and sixteen H in capitals."
pub fn write_integer(value: i64) -> Vec<u8> {
    if value < 0 { format!("0x{value:016X}") } else { value.to_string() }.into_bytes()
}

/// "Into a lent buffer"; "NoRoom (exactly when the result is longer than the buffer)". A refusal "leaves the buffer untouched, and bytes
/// behind a result stay". Gives how many bytes were written.
pub fn put(result: &[u8], buffer: &mut [u8]) -> Result<usize, Refusal> {
    buffer.get_mut(..result.len()).ok_or(NoRoom)?.copy_from_slice(result);
    Ok(result.len())
}

/// Capitals, two digits for each byte.
pub fn hexadecimal(bytes: &[u8]) -> String {
    let digit = |half: u8| char::from(b"0123456789ABCDEF"[usize::from(half)]);
    bytes.iter().flat_map(|byte| [digit(byte >> 4), digit(byte & 15)]).collect()
}

/// Each byte as the character of its number, for what the library offers for characters alone.
fn characters(bytes: &[u8]) -> String {
    bytes.iter().copied().map(char::from).collect()
}

/// And back.
fn bytes(characters: &str) -> Vec<u8> {
    characters.chars().map(|character| u8::try_from(character).expect("it was a byte")).collect()
}
