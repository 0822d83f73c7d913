//! The pairing of a list's brackets, said from request 12's sentences over the list's numbers. It goes by levels: how many brackets are open at
//! a record, and which opener was the last on each level. No text is lexed.

use crate::kinds;
use crate::list::{TOO_LONG, WIDTH};
use crate::token::TokenType::{TK_LBRACKET, TK_LP, TK_RBRACKET, TK_RP};

/// 'Sixteen levels pass, 17 don't.'
pub const LEVELS: usize = 16;

/// 'Over 65,535 records' are too many: as many as a text has bytes that List does not take.
pub const TOO_MANY: usize = TOO_LONG;

#[derive(Clone, Copy, Debug, PartialEq)]
pub enum Refusal {
    NotRecords,
    TooLong,
    NoRoom,
    TooDeep,
    WrongCloser,
    LeftOpen,
}

/// Gives the deepest nesting, and 'writes, for each record, its partner's index, or its own if it has none, into a lent list of as many
/// numbers'; or gives the refusal and its index. 'On any refusal the lent list is untouched; numbers behind the partners keep what they held.'
pub fn pair(numbers: &[u32], lent: &mut [u32]) -> Result<usize, (Refusal, usize)> {
    let records = numbers.chunks_exact(WIDTH);
    // 'The first three refusals carry index 0.'
    if !records.remainder().is_empty() {
        return Err((Refusal::NotRecords, 0));
    }
    if records.len() >= TOO_MANY {
        return Err((Refusal::TooLong, 0));
    }
    if lent.len() < records.len() {
        return Err((Refusal::NoRoom, 0));
    }
    let kinds: Vec<_> = records.map(|record| bracket(record[0])).collect();
    let (partners, deepest) = partners(&kinds)?;
    lent[..partners.len()].copy_from_slice(&partners);
    Ok(deepest)
}

#[derive(Clone, Copy, PartialEq)]
enum Sort {
    Round,
    Square,
}

#[derive(Clone, Copy)]
enum Bracket {
    Opener(Sort),
    Closer(Sort),
    /// 'Any other token.'
    None,
}

fn bracket(kind: u32) -> Bracket {
    let is = |other| kind == kinds::number(other);
    match kind {
        _ if is(TK_LP) => Bracket::Opener(Sort::Round),
        _ if is(TK_RP) => Bracket::Closer(Sort::Round),
        _ if is(TK_LBRACKET) => Bracket::Opener(Sort::Square),
        _ if is(TK_RBRACKET) => Bracket::Closer(Sort::Square),
        _ => Bracket::None,
    }
}

/// Each record's partner, and the deepest nesting; else 'the first fault in record order', or the innermost opener left open at the end.
fn partners(kinds: &[Bracket]) -> Result<(Vec<u32>, usize), (Refusal, usize)> {
    let mut partners: Vec<_> = (0..kinds.len() as u32).collect();
    // By how many were open before it.
    let mut last = [(Sort::Round, 0); LEVELS];
    let (mut open, mut deepest) = (0, 0);
    for (index, &kind) in kinds.iter().enumerate() {
        match kind {
            Bracket::Opener(_) if open == LEVELS => return Err((Refusal::TooDeep, index)),
            Bracket::Opener(sort) => {
                last[open] = (sort, index);
                open += 1;
                deepest = deepest.max(open);
            }
            // 'Wrong kind, or nothing open.'
            Bracket::Closer(sort) if open == 0 || last[open - 1].0 != sort => {
                return Err((Refusal::WrongCloser, index));
            }
            Bracket::Closer(_) => {
                open -= 1;
                let opener = last[open].1;
                (partners[opener], partners[index]) = (index as u32, opener as u32);
            }
            Bracket::None => {}
        }
    }
    match open {
        0 => Ok((partners, deepest)),
        _ => Err((Refusal::LeftOpen, last[open - 1].1)),
    }
}
