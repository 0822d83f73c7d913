//! Texts for lists without blanks, a slice at a time: rich in blanks and comments, with lists that run full and allowances that are spent at the
//! same lexeme, one before the other, or not at all.

use super::damage::{damage, SPECIAL};
use super::families::{Family, Plan};
use super::random::Random;
use super::{lexemes, makers, near, newlines, statements};
use crate::list::{MOST, WIDTH};
use crate::modes::Mode;
use crate::second::Profile;
use crate::token::TokenType::TK_NONE;
use crate::walk::{walk, Source};

/// Lists of no record, one and more, with none, some or all but one of a record's numbers over.
const ROOMS: [usize; 7] = [2 * WIDTH, WIDTH - 1, 20 * WIDTH, WIDTH, 0, 2 * WIDTH - 1, 5 * WIDTH + 2];
const ALLOWANCES: [u32; 9] = [3, 1, 0, 12, 2, u32::MAX, 5, 20, 65_535];
/// So many pieces have each list with each allowance, since the two numbers have no divisor in common.
const PAIRS: u64 = (ROOMS.len() * ALLOWANCES.len()) as u64;

/// Starting the program costs as much as some hundred texts.
const PIECE: u64 = 1_000;

pub fn families(plan: Plan) -> Vec<Family> {
    let share = plan.count / 8;
    let mut families = vec![
        fitted(Source::of(plan.profile), 2 * share),
        family("lexemes", share, |r, text| {
            several(r, text);
            makers::offset(r, text.len())
        }),
        family("special bytes", share / 2, |r, text| {
            (0..=r.below(16)).for_each(|_| text.push(if r.once_in(3) { b' ' } else { r.byte_of(SPECIAL) }));
            r.below(text.len() + 2)
        }),
        family("newlines", share, newlines::any),
        statements(share / 2),
        every("part: small", b"a; '", 2 * share, plan.seed),
        every("part: comments", b"a-\n!", share, plan.seed),
        whole(),
        Family::new("part: longest", small, 48 + plan.count / 20_000, makers::longest).in_pieces_of(3),
    ];
    if plan.profile == Profile::Sqlite {
        families.push(family("near lexemes", share, near::several));
    }
    families.into_iter().map(|family| family.under(plan.profile)).collect()
}

/// Parts of the corpus.
pub fn real(plan: Plan) -> Family {
    family("corpus parts", plan.count, |r, text| {
        text.extend(plan.corpus.part(r, 100));
        makers::offset(r, text.len())
    })
    .under(plan.profile)
}

/// The numbers lent to the texts of a piece, and their allowance: both by turns.
fn asked(piece: u64) -> (usize, u32) {
    (ROOMS[piece as usize % ROOMS.len()], ALLOWANCES[piece as usize % ALLOWANCES.len()])
}

fn small(piece: u64) -> Mode {
    let (room, allowance) = asked(piece);
    Mode::Part(room, allowance)
}

fn family<'a>(name: &str, count: u64, make: impl Fn(&mut Random, &mut Vec<u8>) -> usize + Sync + 'a) -> Family<'a> {
    Family::new(format!("part: {name}"), small, count, move |_, r, text| make(r, text)).in_pieces_of(PIECE)
}

/// Lexemes, two blanks or comments among five.
fn several(r: &mut Random, text: &mut Vec<u8>) {
    for _ in 0..=r.below(12) {
        any(r, text);
    }
}

fn any(r: &mut Random, text: &mut Vec<u8>) {
    match r.below(5) {
        0 => lexemes::blanks(r, text),
        1 => lexemes::comment(r, text),
        _ => lexemes::any(r, text),
    }
}

/// Texts with as many lexemes as the allowance, or as many tokens other than TK_NONE as the list has whole records, one more or one less;
/// behind them blanks, something refused, or nothing.
fn fitted<'a>(source: Source, count: u64) -> Family<'a> {
    let piece = (count / PAIRS).clamp(100, PIECE);
    Family::new("part: fitted", small, count, move |index, r, text| {
        let (room, allowance) = asked(index / piece);
        if r.once_in(2) {
            several(r, text);
        }
        let (from, off) = (text.len(), [1, 2, 3, 2, 3][r.below(5)]);
        let by_tokens = allowance > 20 || r.once_in(2);
        let most = if by_tokens { room / WIDTH } else { allowance as usize };
        grow(source, r, text, from, by_tokens, (most + off).saturating_sub(2));
        if r.once_in(4) {
            lexemes::blanks(r, text);
        }
        // A refusal comes before a spent allowance and a full list.
        if r.once_in(3) {
            text.extend(r.pick::<[u8]>(&[b"'", b"1a", b"!", b"\x00", b"$", b"0x", b" 1e+", b" 1.5x", b" x'1'"]));
        }
        from
    })
    .in_pieces_of(piece)
}

/// Lexemes behind the text until so many can be passed from there, or so many tokens other than TK_NONE; what would be refused, and what is
/// too much, is taken off.
fn grow(source: Source, r: &mut Random, text: &mut Vec<u8>, from: usize, by_tokens: bool, wanted: usize) {
    for _ in 0..8 {
        // Where the text can end, by what has been passed then.
        let mut ends = vec![from];
        walk(source, text, from, |kind, start, length| {
            if by_tokens && kind == TK_NONE {
                *ends.last_mut().expect("it has the beginning") = start + length;
            } else {
                ends.push(start + length);
            }
            Ok(())
        })
        .expect("nothing is written");
        let had = wanted.min(ends.len() - 1);
        text.truncate(ends[had]);
        if had == wanted {
            return;
        }
        (had..wanted).for_each(|_| any(r, text));
    }
}

/// Statements good and damaged have many lexemes; the lists have up to 85 records.
fn statements<'a>(count: u64) -> Family<'a> {
    let mode = |piece| Mode::Part((piece * 37) as usize % (86 * WIDTH), (piece * 29) as u32 % 120);
    Family::new("part: statements", mode, count, |_, r, text| {
        statements::any(r, text);
        if r.once_in(2) {
            damage(r, text);
        }
        makers::offset(r, text.len())
    })
    .in_pieces_of(PIECE)
}

/// Each text over a small alphabet with each list of no record to two, exact or a number short, and with each allowance up to six, and one that
/// is never spent: a piece for each pair of them.
fn every<'a>(name: &str, alphabet: &'a [u8], most: u64, seed: u64) -> Family<'a> {
    const LISTS: [usize; 5] = [0, WIDTH - 1, WIDTH, 2 * WIDTH - 1, 2 * WIDTH];
    const PIECES: u64 = 8 * LISTS.len() as u64;
    let mode = |piece| {
        let (list, allowance) = (piece as usize % LISTS.len(), piece as u32 / LISTS.len() as u32);
        Mode::Part(LISTS[list], if allowance < 7 { allowance } else { u32::MAX })
    };
    let texts = Family::every(name, mode, alphabet, most / PIECES, seed, false);
    let count = texts.count;
    let make = move |index, r: &mut Random, text: &mut Vec<u8>| (texts.make)(index % count, r, text);
    Family::new(texts.name, mode, PIECES * count, make).in_pieces_of(count)
}

/// The longest texts, of as many lexemes as bytes, in every other of which each second is a blank, with the longest lists or a record or less
/// short of it, and allowances of as many lexemes, one less and more.
fn whole<'a>() -> Family<'a> {
    const BYTES: usize = MOST / WIDTH;
    let mode = |piece| {
        let allowances = [BYTES as u32, BYTES as u32 - 1, u32::MAX];
        Mode::Part(MOST - [0, 1, WIDTH][piece as usize / 3], allowances[piece as usize % 3])
    };
    Family::new("part: whole", mode, 18, |index, r, text| {
        for place in 0..BYTES {
            let blank = index % 2 == 1 && place % 2 == 1;
            text.push(r.byte_of(if blank { b" \n" } else { b";,()+~%" }));
        }
        0
    })
    .in_pieces_of(2)
}
