//! Single words: those of the list in any letters, their neighbours, and other bytes. The offset means nothing here.

use super::alphabets::ALL_BYTES;
use super::families::{Family, Plan};
use super::lexemes::KEYWORDS;
use super::makers;
use super::random::Random;
use crate::modes::Mode;

const WORD: fn(u64) -> Mode = |_| Mode::Word;

const LETTERS: &[u8] = b"abcdefghijklmnopqrstuvwxyz";
/// Letters, and what stands beside them in ASCII or would be one but for a bit.
const NEAR: &[u8] = b"AEINORSTZ@[_`{aeinorstz\x7f\xc1\xd3\xe1\x1f09$ ";

pub fn families(plan: Plan) -> Vec<Family> {
    let share = plan.count / 8;
    let letters: usize = KEYWORDS.iter().map(Vec::len).sum();
    vec![
        family("keywords", share / 4, mixed),
        family("near misses", 4 * share, near_miss),
        family("spliced", 2 * share, spliced),
        family("letters", share / 4, |r, word| (0..r.below(21)).for_each(|_| word.push(r.byte_of(NEAR)))),
        family("any bytes", share / 4, |r, word| (0..r.below(21)).for_each(|_| word.push(r.byte()))),
        Family::new("word: longest", WORD, 24, makers::longest),
        Family::every("word: letters", WORD, LETTERS, share, plan.seed, false),
        Family::every("word: bytes", WORD, ALL_BYTES, share, plan.seed, false),
        Family::new("word: one byte off", WORD, 256 * letters as u64, one_byte_off),
    ]
}

fn family<'a>(name: &str, count: u64, make: impl Fn(&mut Random, &mut Vec<u8>) + Sync + 'a) -> Family<'a> {
    Family::new(format!("word: {name}"), WORD, count, move |_, r, word| {
        make(r, word);
        r.below(20)
    })
}

/// A word of the list, each letter large or small.
fn mixed(r: &mut Random, word: &mut Vec<u8>) {
    word.extend(&KEYWORDS[r.below(KEYWORDS.len())]);
    some_small(r, word);
}

fn some_small(r: &mut Random, word: &mut [u8]) {
    word.iter_mut().filter(|_| r.once_in(2)).for_each(|b| b.make_ascii_lowercase());
}

/// Every word of the list with every one of its bytes made every byte, one at a time, each letter large or small.
fn one_byte_off(index: u64, r: &mut Random, word: &mut Vec<u8>) -> usize {
    let mut place = (index / 256) as usize;
    for whole in KEYWORDS.iter() {
        if place < whole.len() {
            word.extend(whole);
            break;
        }
        place -= whole.len();
    }
    some_small(r, word);
    word[place] = (index % 256) as u8;
    0
}

/// A word of the list with one or two bytes changed, dropped, added or swapped.
fn near_miss(r: &mut Random, word: &mut Vec<u8>) {
    mixed(r, word);
    for _ in 0..=r.below(2) {
        let place = r.below(word.len());
        match r.below(6) {
            0 => word[place] = r.byte_of(NEAR),
            1 => word[place] ^= 1 << r.below(8),
            2 => word.swap(place, place.saturating_sub(1)),
            3 => word.insert(place, r.byte_of(NEAR)),
            4 => word.push(r.byte_of(NEAR)),
            _ if word.len() > 1 => drop(word.remove(place)),
            _ => word.insert(place, r.byte()),
        }
    }
}

/// The front of one word of the list and the back of another.
fn spliced(r: &mut Random, word: &mut Vec<u8>) {
    let mut other = Vec::new();
    mixed(r, word);
    mixed(r, &mut other);
    word.truncate(1 + r.below(word.len()));
    word.extend(&other[r.below(other.len())..]);
}
