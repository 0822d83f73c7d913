//! Records for literals that are read: a text, a span of it and a buffer, each of which is right or nearly so. Every span is asked as each
//! kind of literal.

use super::damage::damage;
use super::families::{Family, Plan};
use super::limits::{self, Kind};
use super::random::Random;
use super::{integers, lexemes, makers};
use crate::literals::{
    quoted, read_blob, read_integer, read_name, read_string, write_blob, write_integer, write_name, write_string, Reads,
};
use crate::modes::Mode;
use crate::records::LONGEST_RECORD;
use crate::second::Profile;
use crate::spans::{self, Span, LONGEST_BUFFER};
use crate::token::TokenType::{TK_BLOB, TK_ID, TK_INTEGER, TK_STRING};
use crate::walk::{next, walk, Source};

const LITERAL: fn(u64) -> Mode = |_| Mode::Literal;

/// Of every short text over these every span is asked.
const ALPHABETS: &[(&str, &[u8])] =
    &[("quotes", b"'\"`a"), ("blobs", b"x'0a"), ("digits", b"0x9_a"), ("mixed", b"'\"`[]x09_a; ")];
/// What stands before a literal, where another lexeme may begin.
const FRONTS: &[&[u8]] = &[b"", b"", b"", b" ", b";", b"-", b"a", b"'", b"x", b"0"];
/// What stands behind it and leaves it as it is; and what may make it longer, or nothing.
const PLAIN: &[&[u8]] = &[b"", b"", b" ", b";", b")", b",'a'", b" a"];
const BACKS: &[&[u8]] = &[b"", b"", b" ", b";", b")", b",'a'", b" a", b"'", b"\"", b"`", b"a", b"_", b"."];

/// As long as a record holds: bytes, quotes, digits and zeros.
const LONG: &[Kind] = &[
    (b"'", b"a", b"'"),
    (b"'", b"''", b"'"),
    (b"'a", b"''", b"'"),
    (b"\"", b"\"\"", b"\""),
    (b"\"a", b"b\"\"", b"\""),
    (b"`", b"``", b"`"),
    (b"`a", b"'", b"`"),
    (b"[", b"['", b"]"),
    (b"x'", b"0F", b"'"),
    (b"X'", b"fF0", b"'"),
    (b"", b"0", b"9223372036854775807"),
    (b"", b"0", b"9223372036854775808"),
    (b"0", b"_0", b"_1"),
    (b"", b"9", b""),
    (b"0x", b"0", b"FFFFFFFFFFFFFFFF"),
    (b"0X", b"0", b"1_0000000000000000"),
];

pub fn families(plan: Plan) -> Vec<Family> {
    let (share, source) = (plan.count / 256, Source::of(plan.profile));
    let limits = integers::LIMITS * (share / integers::LIMITS).max(1);
    let mut families = vec![
        family("limits", limits, source, |index, r, text| {
            between(r, text, PLAIN, |r, text| integers::limit(index, r, text))
        }),
        family("integers", share, source, |_, r, text| between(r, text, BACKS, integers::any)),
        family("buffers", 3 * share, source, |_, r, text| between(r, text, BACKS, literal)),
        family("written", share, source, move |_, r, text| between(r, text, PLAIN, |r, text| written(source, r, text))),
        family("spans", 3 * share, source, move |_, r, text| {
            several(r, text);
            span(source, r, text)
        }),
        family("damaged", 3 * share, source, move |_, r, text| {
            several(r, text);
            damage(r, text);
            span(source, r, text)
        }),
        longest(source, 2 * LONG.len() as u64 + plan.count / 1_000_000),
    ];
    families.extend(ALPHABETS.iter().map(|(name, alphabet)| every(name, alphabet, plan.count / 80, plan.seed)));
    if plan.profile == Profile::Sqlite {
        families.push(every("brackets", b"[]a'", plan.count / 40, plan.seed));
    }
    families.into_iter().map(|family| family.under(plan.profile)).collect()
}

/// Parts of the corpus.
pub fn real(plan: Plan) -> Family {
    let source = Source::of(plan.profile);
    family("corpus parts", plan.count / 64, source, move |_, r, text| {
        text.extend(plan.corpus.part(r, 100));
        span(source, r, text)
    })
    .under(plan.profile)
}

/// Each text with the span that its maker gives, and a buffer about as long as what it says.
fn family<'a>(
    name: &str,
    count: u64,
    source: Source,
    make: impl Fn(u64, &mut Random, &mut Vec<u8>) -> Span + Sync + 'a,
) -> Family<'a> {
    Family::new(format!("literal: {name}"), LITERAL, count, move |index, r, text| {
        let span = make(index, r, text);
        let room = makers::room(r, said(source, text, span));
        spans::put(text, span, room);
        span.start
    })
}

/// How many bytes the span says; none if it is an integer, or refused.
fn said(source: Source, text: &[u8], span: Span) -> usize {
    let reads: [Reads; 3] = [read_string, read_name, read_blob];
    let bytes = reads.iter().find_map(|read| read(source, text, span).ok());
    bytes.map_or(0, |bytes| bytes.len())
}

/// One literal, and its span.
fn between(r: &mut Random, text: &mut Vec<u8>, backs: &[&[u8]], make: impl Fn(&mut Random, &mut Vec<u8>)) -> Span {
    text.extend(r.pick(FRONTS));
    let start = text.len();
    make(r, text);
    let length = text.len() - start;
    text.extend(r.pick(backs));
    Span { start, length }
}

/// A string, a name or a blob; what is in brackets may end before.
fn literal(r: &mut Random, text: &mut Vec<u8>) {
    let (value, from) = (makers::value(r), text.len());
    match r.below(8) {
        0 | 1 => text.extend(quoted("'", &value)),
        2 => text.extend(quoted("\"", &value)),
        3 => text.extend(quoted("`", &value)),
        4 | 5 => text.extend([b"[", &value[..], b"]"].concat()),
        _ => {
            text.extend(write_blob(&value));
            lexemes::spell(r, &mut text[from..]);
        }
    }
}

/// What is written of a value. "Reading what was written gives the value again": of the oracle that is tried here.
fn written(source: Source, r: &mut Random, text: &mut Vec<u8>) {
    let whole = |literal: &[u8]| Span { start: 0, length: literal.len() };
    let bytes = makers::value(r);
    let (literal, read): (_, Reads) = match r.below(4) {
        0 => (write_string(&bytes), read_string),
        1 => (write_name(&bytes), read_name),
        2 => (write_blob(&bytes), read_blob),
        _ => {
            let value = integers::value(r);
            let literal = write_integer(value);
            assert_eq!(read_integer(source, &literal, whole(&literal)), Ok(value), "another integer is read");
            return text.extend(literal);
        }
    };
    assert_eq!(read(source, &literal, whole(&literal)), Ok(bytes), "other bytes are read");
    text.extend(literal);
}

/// Literals good and bad, and a few other lexemes.
fn several(r: &mut Random, text: &mut Vec<u8>) {
    for _ in 0..=r.below(3) {
        match r.below(8) {
            0..=2 => literal(r, text),
            3 => integers::any(r, text),
            4 => lexemes::number(r, text),
            5 => lexemes::quoted(r, text),
            6 => lexemes::blob(r, text),
            _ => lexemes::any(r, text),
        }
        text.extend(r.pick(BACKS));
    }
}

/// The span of a literal or a word that a walk meets, or one nearly so; that of a token inside another; or any.
fn span(source: Source, r: &mut Random, text: &[u8]) -> Span {
    let mut met = Vec::new();
    let meet = |kind, start, length| {
        if [TK_INTEGER, TK_STRING, TK_ID, TK_BLOB].contains(&kind) {
            met.push(Span { start, length });
        }
        Ok(())
    };
    walk(source, text, 0, meet).expect("nothing is written");
    let start = r.below(text.len() + 1);
    let inside = Span { start, length: next(source, text, start).map_or(0, |(_, length)| length) };
    let span = if met.is_empty() || r.once_in(6) { inside } else { met[r.below(met.len())] };
    let Span { start, length } = span;
    match r.below(24) {
        0 => Span { start, length: length + 1 },
        1 => Span { start, length: length.saturating_sub(1) },
        2 => Span { start: start + 1, length },
        3 => Span { start: start + 1, length: length.saturating_sub(1) },
        4 => Span { start: start.saturating_sub(1), length: length + 1 },
        5 => Span { start, length: wrapping(start, r.below(text.len() + 1)) },
        6 => far(r, text.len()),
        7 => Span { start: r.below(text.len() + 2), length: r.below(text.len() + 3) },
        _ => span,
    }
}

/// The length with which a span ends there, in numbers of 32 bits: from a later start on it wraps.
fn wrapping(start: usize, end: usize) -> usize {
    (end as u32).wrapping_sub(start as u32) as usize
}

/// A start past the end, perhaps as far as may be, and a length that ends nowhere, or wraps to somewhere in the text.
fn far(r: &mut Random, end: usize) -> Span {
    let start = if r.once_in(2) { end + r.below(3) } else { u32::MAX as usize - r.below(3) };
    let length = if r.once_in(4) { u32::MAX as usize - r.below(3) } else { wrapping(start, r.below(end + 1)) };
    Span { start, length }
}

/// Every span of every short text: starts up to one past the end of the longest, lengths up to two past it, and two with which most
/// ends wrap.
fn every<'a>(name: &str, alphabet: &'a [u8], most: u64, seed: u64) -> Family<'a> {
    let (starts, lengths) = (|longest: u64| longest + 2, |longest: u64| longest + 3);
    let of_each = move |longest| starts(longest) * (lengths(longest) + 2);
    Family::each(&format!("literal: {name}"), LITERAL, alphabet, most, seed, of_each, move |turn, longest, r, text| {
        let (start, turn) = ((turn % starts(longest)) as usize, turn / starts(longest));
        let length = match turn.checked_sub(lengths(longest)) {
            None => turn as usize,
            Some(0) => u32::MAX as usize,
            Some(_) => wrapping(start, 0),
        };
        spans::put(text, Span { start, length }, r.below(4));
        start
    })
}

/// Literals about as long as a record holds.
fn longest<'a>(source: Source, count: u64) -> Family<'a> {
    let make = move |index: u64, r: &mut Random, text: &mut Vec<u8>| {
        let start = r.below(2);
        text.resize(start, b';');
        let length = LONGEST_RECORD - 8 - start - r.below(3);
        limits::write(LONG[index as usize % LONG.len()], length, text);
        let span = Span { start, length };
        let room = if r.once_in(8) { LONGEST_BUFFER } else { makers::room(r, said(source, text, span)) };
        spans::put(text, span, room);
        start
    };
    Family::new("literal: longest", LITERAL, count, make).in_pieces_of(4)
}
