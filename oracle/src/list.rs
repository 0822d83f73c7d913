//! List, also without blanks and a slice at a time, and the cut into statements, said plainly over the walk. All go on to where the walk
//! stops, and keep what came first.

use crate::kinds;
use crate::token::TokenType::{
    self, TK_CREATE, TK_END, TK_EXPLAIN, TK_NONE, TK_PLAN, TK_QUERY, TK_SEMI, TK_TEMP, TK_TRIGGER,
};
use crate::walk::{walk, Source, Stop};
use std::io;

/// How many numbers a record has: kind, start, length, line and column.
pub const WIDTH: usize = 5;

pub type Record = [u32; WIDTH];

/// The numbers that the lexemes of the longest text can need: a record for each byte.
pub const MOST: usize = WIDTH * (TOO_LONG - 1);

/// List takes shorter texts only.
pub const TOO_LONG: usize = 65_536;

/// Writes the record of each legal lexeme from the offset on. Gives how it stopped and the number of records.
pub fn list(source: Source, numbers: &mut [u32], text: &[u8], offset: usize) -> io::Result<(Stop, usize)> {
    if text.len() >= TOO_LONG {
        return Ok((Stop::Refusal("TooLong", 0, 0, offset), 0));
    }
    let newlines = newlines(text);
    let (mut records, mut full) = (0, None);
    let stop = walk(source, text, offset, |kind, start, length| {
        match numbers.chunks_exact_mut(WIDTH).nth(records) {
            Some(free) => {
                free.copy_from_slice(&record(&newlines, (kind, start, length)));
                records += 1;
            }
            None => full = full.or(Some(start)),
        }
        Ok(())
    })?;
    let full = full.map(|start| Stop::Refusal("ListFull", start, 0, start));
    Ok((full.unwrap_or(stop), records))
}

/// How a slice of a list stopped.
pub enum Slice {
    /// As List does.
    Stop(Stop),
    /// The allowance is spent, and another legal lexeme begins here.
    Paused(usize),
}

/// Request 6: List without TK_NONE, in which 'each lexeme passed, blank or not, costs one' of an allowance. Gives how it stopped, the number of
/// records and that of the lexemes spent.
pub fn part(
    source: Source,
    numbers: &mut [u32],
    text: &[u8],
    offset: usize,
    allowance: u32,
) -> io::Result<(Slice, usize, usize)> {
    if text.len() >= TOO_LONG {
        return Ok((Slice::Stop(Stop::Refusal("TooLong", 0, 0, offset)), 0, 0));
    }
    let mut lexemes = Vec::new();
    let stop = walk(source, text, offset, |kind, start, length| {
        lexemes.push((kind, start, length));
        Ok(())
    })?;
    let is_token = |&(kind, ..): &Lexeme| kind != TK_NONE;
    // How many can be passed: all up to where the walk stops, as many as are allowed, those before the first token that has no place.
    let (all, allowed) = (lexemes.len(), allowance as usize);
    let full = (0..all).filter(|&place| is_token(&lexemes[place])).nth(numbers.len() / WIDTH);
    let spent = all.min(allowed).min(full.unwrap_or(all));
    // 'Order at each place is End, 1 to 7, Paused, then ListFull for tokens other than TK_NONE.'
    let slice = match lexemes.get(spent) {
        None => Slice::Stop(stop),
        Some(&(_, start, _)) if spent == allowed => Slice::Paused(start),
        Some(&(_, start, _)) => Slice::Stop(Stop::Refusal("ListFull", start, 0, start)),
    };
    let newlines = newlines(text);
    let records: Vec<_> =
        lexemes[..spent].iter().filter(|lexeme| is_token(lexeme)).map(|&lexeme| record(&newlines, lexeme)).collect();
    numbers[..WIDTH * records.len()].copy_from_slice(&records.concat());
    Ok((slice, records.len(), spent))
}

/// Kind, start and length.
type Lexeme = (TokenType, usize, usize);

fn record(newlines: &[usize], (kind, start, length): Lexeme) -> Record {
    let [line, column] = line_and_column(newlines, start);
    let [start, length, line, column] = [start, length, line, column].map(|number| number as u32);
    [kinds::number(kind), start, length, line, column]
}

/// The places of all 0A bytes of the text, wherever a list starts.
fn newlines(text: &[u8]) -> Vec<usize> {
    (0..text.len()).filter(|&place| text[place] == 0x0a).collect()
}

/// Request 1: 'Line is 1 plus the 0A bytes before the start; column is 1 plus the bytes since the last 0A before the start, or since the
/// text's beginning.'
fn line_and_column(newlines: &[usize], start: usize) -> [usize; 2] {
    let before = &newlines[..newlines.partition_point(|&place| place < start)];
    let since = before.last().map_or(0, |last| last + 1);
    [1 + before.len(), 1 + start - since]
}

pub enum Statement {
    /// Up to and with the TK_SEMI that ends it: start, length, whether a token but TK_NONE came before that, offset.
    Cut(usize, usize, bool, usize),
    /// No TK_SEMI ends it, and it has a token but TK_NONE: start, length, offset.
    Open(usize, usize, usize),
    /// Blanks and comments alone, or nothing: the text's length.
    End(usize),
    /// Name, span start, span length, offset.
    Refusal(&'static str, usize, usize, usize),
}

/// The statement at the offset. A refusal keeps the offset that was given.
pub fn cut(source: Source, text: &[u8], offset: usize) -> io::Result<Statement> {
    cut_by(ends, source, text, offset)
}

/// The same with another rule for which semicolon ends a statement, by the kinds of its tokens before, TK_NONE left out.
pub fn cut_by(
    ends: impl Fn(&[TokenType]) -> bool,
    source: Source,
    text: &[u8],
    offset: usize,
) -> io::Result<Statement> {
    let (mut semi, mut kinds) = (None, Vec::new());
    let stop = walk(source, text, offset, |kind, start, length| {
        if kind == TK_SEMI && semi.is_none() && ends(&kinds) {
            semi = Some((!kinds.is_empty(), start + length));
        }
        if kind != TK_NONE {
            kinds.push(kind);
        }
        Ok(())
    })?;
    Ok(match (semi, stop) {
        (Some((before, end)), _) => Statement::Cut(offset, end - offset, before, end),
        (None, Stop::Refusal(name, start, length, _)) => Statement::Refusal(name, start, length, offset),
        (None, Stop::End(end)) if !kinds.is_empty() => Statement::Open(offset, end - offset, end),
        (None, Stop::End(end)) => Statement::End(end),
    })
}

/// Request 3: 'A statement whose first tokens other than TK_NONE are CREATE, an optional TEMP or TEMPORARY, then TRIGGER, all optionally
/// after EXPLAIN or EXPLAIN QUERY PLAN, ends only at a semicolon that directly follows END which directly follows a semicolon'. All others
/// end at any.
pub fn ends(kinds: &[TokenType]) -> bool {
    let behind = match kinds {
        [TK_EXPLAIN, TK_QUERY, TK_PLAN, behind @ ..] | [TK_EXPLAIN, behind @ ..] => behind,
        _ => kinds,
    };
    let trigger = matches!(behind, [TK_CREATE, TK_TRIGGER, ..] | [TK_CREATE, TK_TEMP, TK_TRIGGER, ..]);
    !trigger || kinds.ends_with(&[TK_SEMI, TK_END])
}
