//! Blanks, comments, operators, words, `#`, `!` and class U.

use super::bytes::{is_blank, is_continue, is_start, run};
use super::{Answer, Lexeme, Profile, EXPECTED_EQUALS};
use crate::lexer::word_kind;
use crate::token::TokenType::{self, *};

/// 01, legal lexemes: "Blank run: TK_NONE".
pub fn blank_run(_: Profile, rest: &[u8]) -> Option<Lexeme> {
    match run(rest, is_blank) {
        0 => None,
        length => Lexeme::token(length, TK_NONE),
    }
}

/// 01: "`--` to and with the next 0A or to the end".
pub fn line_comment(_: Profile, rest: &[u8]) -> Option<Lexeme> {
    let body = rest.strip_prefix(b"--")?;
    let length = body.iter().position(|&byte| byte == 0x0a).map_or(body.len(), |place| place + 1);
    Lexeme::token(2 + length, TK_NONE)
}

/// 01: "`/*` to and with the next `*/` that begins after these two bytes, or to the end".
pub fn block_comment(_: Profile, rest: &[u8]) -> Option<Lexeme> {
    let body = rest.strip_prefix(b"/*")?;
    let length = body.windows(2).position(|two| two == b"*/").map_or(body.len(), |place| place + 2);
    Lexeme::token(2 + length, TK_NONE)
}

/// 01: "Operators, kinds as the Rust names them."
const OPERATORS: &[(&[u8], TokenType)] = &[
    (b"(", TK_LP),
    (b")", TK_RP),
    (b";", TK_SEMI),
    (b"+", TK_PLUS),
    (b"*", TK_STAR),
    (b"%", TK_REM),
    (b",", TK_COMMA),
    (b"~", TK_BITNOT),
    (b"[", TK_LBRACKET),
    (b"]", TK_RBRACKET),
    (b"-", TK_MINUS),
    (b"/", TK_SLASH),
    (b"<", TK_LT),
    (b">", TK_GT),
    (b"|", TK_BITOR),
    (b"&", TK_BITAND),
    (b".", TK_DOT),
    (b":", TK_COLON),
    (b"=", TK_EQ),
    (b"->", TK_PTR),
    (b"->>", TK_PTR),
    (b"==", TK_EQ),
    (b"<=", TK_LE),
    (b"<<", TK_LSHIFT),
    (b"<>", TK_NE),
    (b">=", TK_GE),
    (b">>", TK_RSHIFT),
    (b"!=", TK_NE),
    (b"||", TK_CONCAT),
    (b"&&", TK_ARRAY_OVERLAP),
    (b"@>", TK_ARRAY_CONTAINS),
];

/// Request 7: "`[` is no operator any more"; "`:` behaves as `@` does"; "`&&` is two tokens and `@>` starts with a bare `@`".
const NOT_UNDER_SQLITE: [TokenType; 4] = [TK_LBRACKET, TK_COLON, TK_ARRAY_OVERLAP, TK_ARRAY_CONTAINS];

pub fn operator(profile: Profile, rest: &[u8]) -> Option<Lexeme> {
    let (operator, kind) = OPERATORS
        .iter()
        .filter(|(operator, kind)| {
            rest.starts_with(operator) && (profile == Profile::Turso || !NOT_UNDER_SQLITE.contains(kind))
        })
        .max_by_key(|(operator, _)| operator.len())?;
    Lexeme::token(operator.len(), *kind)
}

/// 01: "Word: S C*. Kind from the word list, ASCII letters folded, else TK_ID." The list is the published lookup's.
pub fn word(_: Profile, rest: &[u8]) -> Option<Lexeme> {
    let (&first, behind) = rest.split_first()?;
    let length = 1 + run(behind, is_continue);
    is_start(first).then(|| Lexeme::token(length, word_kind(&rest[..length])))?
}

/// 01: "`#` C*: TK_ILLEGAL, a token and no refusal."
pub fn illegal(_: Profile, rest: &[u8]) -> Option<Lexeme> {
    let behind = rest.strip_prefix(b"#")?;
    Lexeme::token(1 + run(behind, is_continue), TK_ILLEGAL)
}

/// 01, malformed lexemes: "U: a byte that starts nothing above or below (controls but blanks, `\ ^ { }`, 7F), on to the next blank
/// or the end."
pub fn unrecognized(_: Profile, rest: &[u8]) -> Option<Lexeme> {
    let &first = rest.first()?;
    let stray = first < 0x20 && !is_blank(first) || matches!(first, b'\\' | b'^' | b'{' | b'}' | 0x7f);
    stray.then(|| Lexeme { length: run(rest, |byte| !is_blank(byte)), answer: Answer::Stray })
}

/// 01: "`!` alone: 7." Alone is: with no `=` next.
pub fn bang(_: Profile, rest: &[u8]) -> Option<Lexeme> {
    let behind = rest.strip_prefix(b"!")?;
    if behind.starts_with(b"=") {
        return None;
    }
    Lexeme::refused(1, EXPECTED_EQUALS, 0, 1)
}
