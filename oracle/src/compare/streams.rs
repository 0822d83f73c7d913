//! Scripts of a stream's calls: texts of many sorts in parts of many sizes, with finish calls behind them and between. The record's offset
//! means nothing here. No script is long enough for a stream that is TooLong.

use super::alphabets::ALPHABETS;
use super::damage::{damage, SPECIAL};
use super::families::{Family, Plan};
use super::random::Random;
use super::{limits, makers, near, statements};
use crate::modes::Mode;
use crate::records::LONGEST_RECORD;
use crate::script::{push, Call};
use crate::second::Profile;

const STREAM: fn(u64) -> Mode = |_| Mode::Stream;

/// Scripts ask much of the statement: small pieces keep all processors at work.
const PIECE: u64 = 5_000;

/// What is refused by 1 to 7 before the text is over.
const REFUSED: &[&[u8]] = &[
    b"{a ", b"$;", b"@::;", b"$a(b ", b"x'1'", b"x'1g", b"1_;", b"1a", b"0x1_;", b"0x_", b"1.5a", b"1e;", b"1e+;",
    b"1e5a", b"0xg", b"!;",
];

pub fn families(plan: Plan) -> Vec<Family> {
    let share = plan.count / 512;
    let mut families = vec![
        parted("special bytes", 4 * share, |r, text| (0..=r.below(16)).for_each(|_| text.push(r.byte_of(SPECIAL)))),
        parted("lexemes", 8 * share, makers::several_lexemes),
        parted("near lexemes", 2 * share, |r, text| {
            near::several(r, text);
        }),
        parted("statements", share, statements::any),
        parted("damaged", 6 * share, |r, text| {
            makers::good(r, text);
            damage(r, text);
        }),
        family("ends", share, ends),
        family("any calls", share, |_, r, script| {
            (0..r.below(16)).for_each(|_| script.push(r.byte_of(b"\x00\x00\x00\x01\x01\x02\x03\xff\xff':$a1 ")))
        }),
        family("cut off", share, |_, r, script| {
            let mut text = Vec::new();
            makers::several_lexemes(r, &mut text);
            parts(r, &text, script);
            script.truncate(script.len() - r.below(4));
        }),
        limits::limits(share / 4),
        family("longest", 4 + plan.count / 2_000_000, longest).in_pieces_of(2),
    ];
    let alphabets = ALPHABETS.iter().chain(if plan.profile == Profile::Sqlite { near::ALPHABETS } else { &[] });
    families.extend(alphabets.map(|(name, alphabet)| every(name, alphabet, 16 * share, plan.seed)));
    families.into_iter().map(|family| family.under(plan.profile)).collect()
}

/// The corpus in pieces, each in parts of three sizes.
pub fn real(plan: Plan) -> Family {
    const SIZES: [usize; 3] = [1, 7, 244];
    /// In parts of one byte, three times as long: a record holds it.
    const LENGTH: usize = 16_384;
    let pieces: Vec<_> = (0..plan.corpus.len()).flat_map(|index| plan.corpus.whole(index).chunks(LENGTH)).collect();
    let count = (pieces.len() * SIZES.len()) as u64;
    family("corpus", count, move |index, _, script| {
        let index = index as usize;
        in_parts_of(SIZES[index % SIZES.len()], pieces[index / SIZES.len()], script);
        (0..4).for_each(|_| push(script, Call::Finish));
    })
    .in_pieces_of(60)
    .under(plan.profile)
}

pub fn family<'a>(name: &str, count: u64, make: impl Fn(u64, &mut Random, &mut Vec<u8>) + Sync + 'a) -> Family<'a> {
    Family::new(format!("stream: {name}"), STREAM, count, move |index, r, script| {
        make(index, r, script);
        r.below(20)
    })
    .in_pieces_of(PIECE)
}

/// Texts in random parts, and calls behind them.
fn parted<'a>(name: &str, count: u64, make: impl Fn(&mut Random, &mut Vec<u8>) + Sync + 'a) -> Family<'a> {
    family(name, count, move |_, r, script| {
        let mut text = Vec::new();
        make(r, &mut text);
        parts(r, &text, script);
        calls(r, script);
    })
}

/// Parts of one length or of any up to it, now and then with an empty part or a finish call before one.
fn parts(r: &mut Random, text: &[u8], script: &mut Vec<u8>) {
    let (most, same, mut rest) = (1 + r.size(text.len().max(1)), r.once_in(2), text);
    while !rest.is_empty() {
        if r.once_in(16) {
            push(script, Call::Part(b""));
        }
        if r.once_in(100) {
            push(script, Call::Finish);
        }
        let length = if same { most } else { 1 + r.below(most) };
        let (part, behind) = rest.split_at(length.min(rest.len()));
        push(script, Call::Part(part));
        rest = behind;
    }
}

/// Up to seven calls, most of them finish calls.
fn calls(r: &mut Random, script: &mut Vec<u8>) {
    for _ in 0..r.below(8) {
        match r.below(8) {
            0 => push(script, Call::Part(b"")),
            1 => push(script, Call::Part(r.pick::<[u8]>(&[b"a", b"; ", b"1e5a", b"'"]))),
            _ => push(script, Call::Finish),
        }
    }
}

pub fn in_parts_of(size: usize, text: &[u8], script: &mut Vec<u8>) {
    text.chunks(size).for_each(|part| push(script, Call::Part(part)));
}

/// A stream that ends in every way: by a refusal, by a lexeme that is too long, by a quote that is open at the finish call, or
/// by End. And calls behind that.
fn ends(index: u64, r: &mut Random, script: &mut Vec<u8>) {
    let mut text = r.pick::<[u8]>(&[b"", b"", b"a;", b"select '' "]).to_vec();
    let way = index as usize % (REFUSED.len() + 3);
    match way.checked_sub(REFUSED.len()) {
        None => text.extend(REFUSED[way]),
        Some(0) => text.resize(2_100, r.byte_of(b" a1'{#")),
        Some(1) => text.extend(b"'a"),
        Some(_) => {}
    }
    parts(r, &text, script);
    if way > REFUSED.len() {
        (0..3).for_each(|_| push(script, Call::Finish));
    }
    calls(r, script);
}

/// One part and finish calls, together as long as a record holds.
fn longest(index: u64, r: &mut Random, script: &mut Vec<u8>) {
    let (finishes, mut text) = (r.below(4), Vec::new());
    let length = LONGEST_RECORD - 2 * (1 + finishes);
    while text.len() < length {
        match index % 2 {
            0 => text.push(r.byte_of(b";,()+~%")),
            _ => text.extend(b"select a,'b' from c; "),
        }
    }
    text.truncate(length);
    push(script, Call::Part(&text));
    (0..finishes).for_each(|_| push(script, Call::Finish));
}

/// What a sequence is made of: the bytes of an alphabet, which go on with a part; the same, which begin one; a finish call; an empty part.
const PLACES: &[u8] = &{
    let mut places = [0; 32];
    let mut place = 0;
    while place < 32 {
        places[place] = place as u8;
        place += 1;
    }
    places
};

/// Every such sequence up to a length, and so every text with all its partings; finish calls behind it, and a part.
fn every<'a>(name: &str, alphabet: &'static [u8], most: u64, seed: u64) -> Family<'a> {
    let places = &PLACES[..2 * alphabet.len() + 2];
    let sequences = Family::every(&format!("stream: {name}"), STREAM, places, most, seed, false);
    let make = sequences.make;
    let spell = move |index, r: &mut Random, script: &mut Vec<u8>| {
        let mut sequence = Vec::new();
        let offset = make(index, r, &mut sequence);
        spell(alphabet, &sequence, script);
        offset
    };
    Family { make: Box::new(spell), ..sequences }.in_pieces_of(PIECE)
}

fn spell(alphabet: &[u8], sequence: &[u8], script: &mut Vec<u8>) {
    let (bytes, mut part) = (alphabet.len(), Vec::new());
    for place in sequence.iter().map(|&place| usize::from(place)) {
        if place >= bytes && !part.is_empty() {
            push(script, Call::Part(&part));
            part.clear();
        }
        match place.checked_sub(2 * bytes) {
            None => part.push(alphabet[place % bytes]),
            Some(0) => push(script, Call::Finish),
            Some(_) => push(script, Call::Part(b"")),
        }
    }
    push(script, Call::Part(&part));
    (0..sequence.len() + 2).for_each(|_| push(script, Call::Finish));
    push(script, Call::Part(b"a"));
}
