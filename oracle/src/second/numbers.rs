//! Integers, floats, and what is refused of a number that doesn't begin with `0x` or `0X`. Of one that does, *Dig* is `0` and an `x`
//! follows, so that it meets no sentence here but the one that names it.

use super::bytes::{at, group_start, groups, is_digit, is_other_start, is_start};
use super::hexadecimal::hex_integer;
use super::{Lexeme, Profile, BAD_EXPONENT, BAD_FRACTION, BAD_NUMBER};
use crate::token::TokenType::{TK_FLOAT, TK_INTEGER};

/// A number's parts, each with the greatest length that it has: *Dig* ends before another byte than D, and so does every part.
struct Number {
    /// *Dig*, the integer part.
    whole: usize,
    /// *Dig*, *Dig* `.`, *Dig* `.` *Dig* or `.` *Dig*, after which `e` may stand.
    mantissa: usize,
    /// `e` or `E` and the sign, if there is one; else 0.
    e: usize,
    /// *Exp*; else 0.
    exponent: usize,
}

impl Number {
    /// Whether a *Dig* follows the dot.
    fn has_fraction(&self) -> bool {
        self.mantissa > self.whole + 1
    }
}

fn number(profile: Profile, rest: &[u8]) -> Option<Number> {
    let whole = groups(rest, is_digit);
    let fraction = rest[whole..].strip_prefix(b".").map(|behind| groups(behind, is_digit));
    let mantissa = match fraction {
        Some(digits) if whole + digits > 0 => whole + 1 + digits,
        _ => whole,
    };
    if mantissa == 0 {
        return None;
    }
    let behind = &rest[mantissa..];
    Some(Number { whole, mantissa, e: e_and_sign(behind), exponent: exp(profile, behind) })
}

fn e_and_sign(rest: &[u8]) -> usize {
    match rest {
        [b'e' | b'E', b'+' | b'-', ..] => 2,
        [b'e' | b'E', ..] => 1,
        _ => 0,
    }
}

/// 01, legal lexemes: "*Exp* = `e` or `E`, optional sign, optional `_`, *Dig*." Request 7: "`_` directly after `e` or its sign
/// counts as any other byte that is no digit".
fn exp(profile: Profile, rest: &[u8]) -> usize {
    let mut front = e_and_sign(rest);
    if front == 0 {
        return 0;
    }
    if profile == Profile::Turso && rest.get(front) == Some(&b'_') {
        front += 1;
    }
    match groups(&rest[front..], is_digit) {
        0 => 0,
        digits => front + digits,
    }
}

/// 01: "TK_INTEGER: *Dig*; `0x` or `0X` H+ ( `_` H+ )*."
pub fn integer(_: Profile, rest: &[u8]) -> Option<Lexeme> {
    match hex_integer(rest).max(groups(rest, is_digit)) {
        0 => None,
        length => Lexeme::token(length, TK_INTEGER),
    }
}

/// 01: "TK_FLOAT: *Dig* `.`; *Dig* `.` *Exp*; *Dig* `.` *Dig* with or without *Exp*; *Dig* *Exp*; `.` *Dig* with or without *Exp*."
pub fn float(profile: Profile, rest: &[u8]) -> Option<Lexeme> {
    let Number { whole, mantissa, exponent, .. } = number(profile, rest)?;
    let dot = mantissa > whole;
    (dot || exponent > 0).then(|| Lexeme::token(mantissa + exponent, TK_FLOAT))?
}

/// 01, malformed lexemes: "`_` after a *Dig* (or after `e` and sign) with no D next: 3. The span ends after that `_`. It begins after
/// the previous `_` of the same digit run, else at the run's start; the integer part's run starts after its first digit."
/// Request 7: "refusal 3 directly after `e` and sign goes".
pub fn underscore(profile: Profile, rest: &[u8]) -> Option<Lexeme> {
    let n = number(profile, rest)?;
    let after_e = n.mantissa + n.e;
    // Start and end of each run that a `_` may follow.
    let runs = [
        (n.whole > 0).then_some((1, n.whole)),
        n.has_fraction().then_some((n.whole + 1, n.mantissa)),
        (n.exponent > 0).then_some((after_e, n.mantissa + n.exponent)),
        (n.e > 0 && profile == Profile::Turso).then_some((after_e, after_e)),
    ];
    let stuck = |&(_, end): &(usize, usize)| rest.get(end) == Some(&b'_') && !at(rest, end + 1, is_digit);
    let (start, end) = runs.into_iter().flatten().find(stuck)?;
    let from = group_start(rest, start, end);
    Lexeme::refused(end + 1, BAD_NUMBER, from, end + 1 - from)
}

/// 01: "*Dig* and an S that isn't `_`, `e`, `E`, nor `x`/`X` after a lone 0: 3, the *Dig* only." The S belongs to the lexeme.
pub fn word_after_integer(_: Profile, rest: &[u8]) -> Option<Lexeme> {
    let digits = groups(rest, is_digit);
    let lone_zero = &rest[..digits] == b"0" && at(rest, 1, |byte| matches!(byte, b'x' | b'X'));
    if digits == 0 || lone_zero || !at(rest, digits, is_other_start) {
        return None;
    }
    Lexeme::refused(digits + 1, BAD_NUMBER, 0, digits)
}

/// 01: "`.` *Dig* (or *Dig* `.` *Dig*) and such an S (`x` included): 4, from the dot to before S."
pub fn word_after_fraction(profile: Profile, rest: &[u8]) -> Option<Lexeme> {
    let n = number(profile, rest)?;
    if !n.has_fraction() || !at(rest, n.mantissa, is_other_start) {
        return None;
    }
    Lexeme::refused(n.mantissa + 1, BAD_FRACTION, n.whole, n.mantissa - n.whole)
}

/// 01: "`e` and sign with neither D nor `_` next: 5, from `e` through the sign." Request 7: "`_` directly after `e` or its sign
/// counts as any other byte that is no digit".
pub fn no_exponent(profile: Profile, rest: &[u8]) -> Option<Lexeme> {
    let Number { mantissa, e, .. } = number(profile, rest)?;
    let end = mantissa + e;
    let underscore = profile == Profile::Turso && rest.get(end) == Some(&b'_');
    if e == 0 || underscore || at(rest, end, is_digit) {
        return None;
    }
    Lexeme::refused(end, BAD_EXPONENT, mantissa, e)
}

/// 01: "An *Exp* and an S other than `_`: 5, from `e` to before S."
pub fn word_after_exponent(profile: Profile, rest: &[u8]) -> Option<Lexeme> {
    let Number { mantissa, exponent, .. } = number(profile, rest)?;
    let end = mantissa + exponent;
    if exponent == 0 || !at(rest, end, |byte| is_start(byte) && byte != b'_') {
        return None;
    }
    Lexeme::refused(end + 1, BAD_EXPONENT, mantissa, exponent)
}
