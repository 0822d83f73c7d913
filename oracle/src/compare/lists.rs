//! Texts for List, each with a list of some length: exact, short by a record or less, or ample.

use super::damage::{damage, SPECIAL};
use super::families::{Family, Plan};
use super::random::Random;
use super::{lexemes, makers, newlines, statements};
use crate::list::{MOST, TOO_LONG, WIDTH};
use crate::modes::Mode;
use crate::walk::{walk, Source};

/// Pieces so small that lists of many lengths are had.
pub const PIECE: u64 = 1_000;

/// Lists shorter than this have no record, one or two, with none to all but one of a record's numbers over.
const FEW: usize = 3 * WIDTH;
/// Most others are shorter than this.
const MANY: usize = 13 * WIDTH;

/// How many lists are as long as may be lent, or up to a record shorter.
const WHOLE: u64 = WIDTH as u64 + 1;

pub fn families(plan: Plan) -> Vec<Family> {
    let share = plan.count / 8;
    let mut families = vec![
        fitted(Source::of(plan.profile), 3 * share),
        family("lexemes", share, |r, text| {
            makers::several_lexemes(r, text);
            makers::offset(r, text.len())
        }),
        family("special bytes", share, |r, text| {
            (0..=r.below(16)).for_each(|_| text.push(r.byte_of(SPECIAL)));
            r.below(text.len() + 2)
        }),
        statements(share),
        every("list: small", b"a;1 '!", share, plan.seed),
        whole(4 * WHOLE + plan.count / 400_000),
        Family::new("list: longest", small, 48 + plan.count / 20_000, makers::longest).in_pieces_of(3),
    ];
    families.extend(newlines::families(share, plan.seed));
    families
}

/// The corpus, each piece from its beginning and from any other place, and parts of it.
pub fn real(plan: Plan) -> [Family; 2] {
    let corpus = plan.corpus;
    let whole = Family::new(
        "list: corpus whole",
        |_| Mode::List(1_000 * WIDTH),
        2 * corpus.len() as u64,
        |index, r, text| {
            text.extend(corpus.whole(index as usize / 2));
            text.truncate(TOO_LONG - 1);
            [0, r.below(text.len() + 1)][index as usize % 2]
        },
    );
    let parts = family("corpus parts", plan.count / 8, |r, text| {
        text.extend(corpus.part(r, 60));
        makers::offset(r, text.len())
    });
    [whole.in_pieces_of(100), parts]
}

/// The numbers lent to the texts of a piece: few by turns in every other piece, more in those between.
fn room(piece: u64) -> usize {
    let turn = (piece / 2) as usize;
    [turn % FEW, FEW + turn % (MANY - FEW)][(piece % 2) as usize]
}

pub fn small(piece: u64) -> Mode {
    Mode::List(room(piece))
}

fn family<'a>(name: &str, count: u64, make: impl Fn(&mut Random, &mut Vec<u8>) -> usize + Sync + 'a) -> Family<'a> {
    Family::new(format!("list: {name}"), small, count, move |_, r, text| make(r, text)).in_pieces_of(PIECE)
}

/// Texts with as many lexemes as the list has whole records, or one more, or about so many: by the numbers that are over the list is
/// exact or ample, or short by a record or less.
fn fitted<'a>(source: Source, count: u64) -> Family<'a> {
    Family::new("list: fitted", small, count, move |index, r, text| {
        let records = room(index / PIECE) / WIDTH;
        let wanted = match r.below(8) {
            0..=2 => records,
            3..=5 => records + 1,
            6 => r.below(records + 1),
            _ => records + 2 + r.below(3),
        };
        if wanted == 0 || r.once_in(2) {
            makers::several_lexemes(r, text);
        }
        let from = text.len();
        grow(source, r, text, from, wanted);
        // A refusal comes before a full list, a lexeme doesn't.
        if r.once_in(4) {
            text.extend(r.pick::<[u8]>(&[b"'", b"1a", b"!", b"\x00", b"$", b"0x", b" 1e+", b" 1.5x", b" x'1'"]));
        }
        from
    })
    .in_pieces_of(PIECE)
}

/// Lexemes behind the text until so many can be passed from there; what would be refused, and what is too much, is taken off.
fn grow(source: Source, r: &mut Random, text: &mut Vec<u8>, from: usize, wanted: usize) {
    for _ in 0..8 {
        let mut ends = vec![from];
        walk(source, text, from, |_, start, length| {
            ends.push(start + length);
            Ok(())
        })
        .expect("nothing is written");
        let had = wanted.min(ends.len() - 1);
        text.truncate(ends[had]);
        if had == wanted {
            return;
        }
        (had..wanted).for_each(|_| lexemes::any(r, text));
    }
}

/// Statements good and damaged have many lexemes; the lists have up to 85 records.
fn statements<'a>(count: u64) -> Family<'a> {
    let mode = |piece| Mode::List((piece * 37) as usize % (86 * WIDTH));
    Family::new("list: statements", mode, count, |_, r, text| {
        statements::any(r, text);
        if r.once_in(2) {
            damage(r, text);
        }
        makers::offset(r, text.len())
    })
    .in_pieces_of(PIECE)
}

/// Each text over a small alphabet with each list of up to four records: a piece for each list.
pub fn every<'a>(name: &str, alphabet: &'a [u8], most: u64, seed: u64) -> Family<'a> {
    const LISTS: u64 = 4 * WIDTH as u64 + 1;
    let mode = |piece| Mode::List(piece as usize);
    let texts = Family::every(name, mode, alphabet, most / LISTS, seed, false);
    let count = texts.count;
    let make = move |index, r: &mut Random, text: &mut Vec<u8>| (texts.make)(index % count, r, text);
    Family::new(texts.name, mode, LISTS * count, make).in_pieces_of(count)
}

/// Lists as long as may be lent, or up to a record shorter: a text of 65,535 lexemes fills the longest exactly. In every other of these
/// texts each second byte is a 0A.
fn whole<'a>(count: u64) -> Family<'a> {
    let mode = |piece| Mode::List(MOST - (piece % WHOLE) as usize);
    Family::new("list: whole", mode, count, |index, r, text| {
        let (piece, turn) = (index / 2, index / 2 / WHOLE);
        if index % 2 == 1 {
            makers::long(r, text);
            return 0;
        }
        for place in 0..MOST / WIDTH {
            let ends = (piece + turn) % 2 == 0 && place % 2 == 1;
            text.push(if ends { b'\n' } else { r.byte_of(b";,()+~[]%") });
        }
        (turn % 2) as usize
    })
    .in_pieces_of(2)
}
