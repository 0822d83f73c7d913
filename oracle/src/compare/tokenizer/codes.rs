//! What the codes of SQLite's tokenizer mean. No header has them, so each is learnt from a text of its kind.

use super::super::ask;
use super::super::lexemes::KEYWORDS;
use super::Given;
use crate::lexer::word_kind;
use crate::records;
use crate::token::TokenType::{self, *};
use std::collections::{HashMap, HashSet};
use std::io::{self, Error};

/// A text for each kind that is no keyword and that SQLite has. Blanks and comments are TK_NONE here, TK_SPACE there.
const TEXTS: &[(&[u8], TokenType)] = &[
    (b" ", TK_NONE),
    (b"(", TK_LP),
    (b")", TK_RP),
    (b";", TK_SEMI),
    (b"+", TK_PLUS),
    (b"*", TK_STAR),
    (b"%", TK_REM),
    (b",", TK_COMMA),
    (b"~", TK_BITNOT),
    (b"-", TK_MINUS),
    (b"/", TK_SLASH),
    (b"<", TK_LT),
    (b">", TK_GT),
    (b"|", TK_BITOR),
    (b"&", TK_BITAND),
    (b".", TK_DOT),
    (b"=", TK_EQ),
    (b"->", TK_PTR),
    (b"<=", TK_LE),
    (b"<<", TK_LSHIFT),
    (b"<>", TK_NE),
    (b">=", TK_GE),
    (b">>", TK_RSHIFT),
    (b"||", TK_CONCAT),
    (b"''", TK_STRING),
    (b"a", TK_ID),
    (b"1", TK_INTEGER),
    (b"1.5", TK_FLOAT),
    (b"x''", TK_BLOB),
    (b"?", TK_VARIABLE),
];

/// Kinds of words that SQLite does not have.
pub const OWN_WORDS: [TokenType; 4] = [TK_CONCURRENT, TK_OPTIMIZE, TK_TYPE, TK_WITHIN];

/// Refused by every lexer.
const REFUSED: &[u8] = b"!";

/// The kind of each code; none for the code of what is refused.
pub struct Codes(HashMap<i32, Option<TokenType>>);

impl Codes {
    /// Fails if two kinds have one code, or a kind has two.
    pub fn learn(program: &[String]) -> io::Result<Self> {
        let mut samples: Vec<_> = TEXTS.iter().map(|&(text, kind)| (text.to_vec(), Some(kind))).collect();
        let words = KEYWORDS.iter().map(|word| (word.clone(), Some(word_kind(word))));
        samples.extend(words.filter(|(_, kind)| !OWN_WORDS.map(Some).contains(kind)));
        samples.push((REFUSED.to_vec(), None));
        let mut asked = Vec::new();
        samples.iter().for_each(|(text, _)| records::push(&mut asked, 0, text));
        let (answers, _) = ask(program, &[], &asked)?;
        let answers = String::from_utf8(answers).map_err(Error::other)?;
        let (mut codes, mut kinds) = (HashMap::new(), HashSet::new());
        for (line, (text, kind)) in answers.lines().zip(&samples) {
            let token = numbers(line).and_then(|row| row.first().copied());
            let Some((code, length)) = token else { return Err(Error::other(format!("no token: {line}"))) };
            let kept = *codes.entry(code).or_insert(*kind);
            if kept != *kind || length != text.len() {
                return Err(Error::other(format!("code {code}, length {length} of {}", text.escape_ascii())));
            }
            kinds.insert(format!("{kind:?}"));
        }
        if kinds.len() != codes.len() || answers.lines().count() != samples.len() {
            return Err(Error::other("a kind has two codes, or a text no answer"));
        }
        Ok(Codes(codes))
    }

    /// What the tokenizer gives at each place of a text, by the line that its program prints.
    pub fn read(&self, line: &str) -> io::Result<Vec<Given>> {
        let given = |(code, length)| match self.0.get(&code)? {
            Some(kind) => Some(Given::Token(*kind, length)),
            None => Some(Given::Refused(0, length)),
        };
        let row = numbers(line).and_then(|row| row.into_iter().map(given).collect());
        row.ok_or_else(|| Error::other(format!("not codes that are known, and lengths: {line}")))
    }
}

/// A code and a length for each place.
fn numbers(line: &str) -> Option<Vec<(i32, usize)>> {
    let mut words = line.split_ascii_whitespace();
    let mut row = Vec::new();
    while let Some(code) = words.next() {
        row.push((code.parse().ok()?, words.next()?.parse().ok()?));
    }
    Some(row)
}
