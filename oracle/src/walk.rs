//! Next, walked from an offset to the end of the text or the first refusal: by the published `Lexer`, or as it is stated a second time.

use crate::error::Error;
use crate::lexer::Lexer;
use crate::second::{self, Answer, Lexeme, Profile};
use crate::token::TokenType;
use std::io;

/// Whose answers are given.
#[derive(Clone, Copy, PartialEq, Eq, Hash)]
pub enum Source {
    /// The published lexer, which has the profile `turso` alone.
    Published,
    Second(Profile),
}

impl Source {
    /// The published lexer where it can answer.
    pub fn of(profile: Profile) -> Self {
        match profile {
            Profile::Turso => Source::Published,
            Profile::Sqlite => Source::Second(profile),
        }
    }

    pub fn profile(self) -> Profile {
        match self {
            Source::Published => Profile::Turso,
            Source::Second(profile) => profile,
        }
    }

    pub fn name(self) -> &'static str {
        match self {
            Source::Published => "the published lexer",
            Source::Second(_) => "the second statement",
        }
    }
}

#[derive(Clone, Copy, PartialEq, Eq)]
pub enum Stop {
    /// The offset, which is the text's length.
    End(usize),
    /// Name, span start, span length and the offset after it.
    Refusal(&'static str, usize, usize, usize),
}

/// Gives kind, start and length of each token to `token`, and how the walk stopped.
pub fn walk(
    source: Source,
    text: &[u8],
    mut offset: usize,
    mut token: impl FnMut(TokenType, usize, usize) -> io::Result<()>,
) -> io::Result<Stop> {
    if offset > text.len() {
        // The one deliberate difference: the published lexer gives None here, as at the end.
        return Ok(Stop::Refusal("OffsetPastEnd", 0, 0, offset));
    }
    loop {
        match next(source, text, offset) {
            Ok((kind, length)) => {
                token(kind, offset, length)?;
                offset += length;
            }
            Err(stop) => return Ok(stop),
        }
    }
}

/// Kind and length of the token at the offset, which is not past the end, or how a walk stops there.
pub fn next(source: Source, text: &[u8], offset: usize) -> Result<(TokenType, usize), Stop> {
    match source {
        Source::Published => published(text, offset),
        Source::Second(profile) => second(profile, text, offset),
    }
}

/// The published lexer's state is its offset alone.
fn published(text: &[u8], offset: usize) -> Result<(TokenType, usize), Stop> {
    let mut lexer = Lexer::new(text);
    lexer.offset = offset;
    match lexer.next() {
        None => Err(Stop::End(offset)),
        Some(Ok(found)) => {
            let span = &text[offset..lexer.offset];
            assert_eq!(found.value, span, "a token's value is not its span");
            Ok((found.token_type, span.len()))
        }
        Some(Err(error)) => Err(refusal(&error, lexer.offset)),
    }
}

fn second(profile: Profile, text: &[u8], offset: usize) -> Result<(TokenType, usize), Stop> {
    if offset == text.len() {
        return Err(Stop::End(offset));
    }
    let Lexeme { length, answer } = second::next(profile, &text[offset..]);
    match answer {
        Answer::Token(kind) => Ok((kind, length)),
        Answer::Refusal(name, start, span) => Err(Stop::Refusal(name, offset + start, span, offset)),
        Answer::Stray => Err(Stop::Refusal(second::UNRECOGNIZED, offset, length, offset + length)),
    }
}

fn refusal(error: &Error, offset: usize) -> Stop {
    let (name, span) = match error {
        Error::UnrecognizedToken { span, .. } => ("UnrecognizedToken", span),
        Error::UnterminatedLiteral { span, .. } => ("UnterminatedLiteral", span),
        Error::BadNumber { span, .. } => ("BadNumber", span),
        Error::BadFractionalPart { span, .. } => ("BadFractionalPart", span),
        Error::BadExponentPart { span, .. } => ("BadExponentPart", span),
        Error::MalformedHexInteger { span, .. } => ("MalformedHexInteger", span),
        Error::ExpectedEqualsSign { span, .. } => ("ExpectedEqualsSign", span),
        other => unreachable!("no error of the lexer: {other:?}"),
    };
    Stop::Refusal(name, span.offset(), span.len(), offset)
}
