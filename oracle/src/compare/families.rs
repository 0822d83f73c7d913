//! What a family of texts is.

use super::alphabets;
use super::corpus::Corpus;
use super::random::Random;
use crate::modes::Mode;
use crate::second::Profile;

/// Makes the text with this number in an empty row and gives the offset.
type Make<'a> = Box<dyn Fn(u64, &mut Random, &mut Vec<u8>) -> usize + Sync + 'a>;

pub struct Family<'a> {
    pub name: String,
    pub count: u64,
    /// How many texts one run of the program is asked.
    pub piece: u64,
    /// How the texts of the piece with this number are asked.
    pub mode: fn(u64) -> Mode,
    pub profile: Profile,
    pub make: Make<'a>,
}

/// What the families of a mode are made from: about how many texts, the seed, real SQL, and the profile that is asked for.
#[derive(Clone, Copy)]
pub struct Plan<'a> {
    pub count: u64,
    pub seed: u64,
    pub corpus: &'a Corpus,
    pub profile: Profile,
}

/// Enough that starting the program costs little.
const PIECE: u64 = 50_000;

/// With this seed the small alphabets are gone through in order; they would give the same texts again with every other.
const FIRST_SEED: u64 = 1;

impl<'a> Family<'a> {
    pub fn new(
        name: impl Into<String>,
        mode: fn(u64) -> Mode,
        count: u64,
        make: impl Fn(u64, &mut Random, &mut Vec<u8>) -> usize + Sync + 'a,
    ) -> Self {
        Family { name: name.into(), count, piece: PIECE, mode, profile: Profile::Turso, make: Box::new(make) }
    }

    pub fn under(self, profile: Profile) -> Self {
        Family { profile, ..self }
    }

    /// The name, with the profile if it is not document 01's.
    pub fn title(&self) -> String {
        match self.profile {
            Profile::Turso => self.name.clone(),
            Profile::Sqlite => format!("sqlite: {}", self.name),
        }
    }

    pub fn in_pieces_of(self, piece: u64) -> Self {
        Family { piece, ..self }
    }

    /// The texts of a piece, where the family has this place among others.
    pub fn texts(&self, piece: u64, place: u64, seed: u64) -> Vec<Vec<u8>> {
        let from = piece * self.piece;
        let text = |index| {
            let mut text = Vec::new();
            (self.make)(index, &mut Random::new(seed, place, index), &mut text);
            text
        };
        (from..self.count.min(from + self.piece)).map(text).collect()
    }

    /// Every text over the alphabet, shortest first, as far as `most` of them reach; as many longer ones where the seed is not
    /// the first. With each text every offset up to one past the end of the longest.
    pub fn every(name: &str, mode: fn(u64) -> Mode, alphabet: &'a [u8], most: u64, seed: u64, offsets: bool) -> Self {
        let of_each = move |length| if offsets { length + 2 } else { 1 };
        Family::each(name, mode, alphabet, most, seed, of_each, |turn, _, _, _| turn as usize)
    }

    /// The same with as many turns of each text as `of_each` says of the longest's length. The text is made a record's, and the offset
    /// given, by `ask`, from the turn and that length.
    pub fn each(
        name: &str,
        mode: fn(u64) -> Mode,
        alphabet: &'a [u8],
        most: u64,
        seed: u64,
        of_each: impl Fn(u64) -> u64 + Sync + 'a,
        ask: impl Fn(u64, u64, &mut Random, &mut Vec<u8>) -> usize + Sync + 'a,
    ) -> Self {
        let (length, texts) = reach(alphabet.len() as u64, most, &of_each);
        let turns = of_each(length);
        if seed == FIRST_SEED {
            return Family::new(format!("{name}, all to {length}"), mode, texts * turns, move |index, r, text| {
                alphabets::text(alphabet, index / turns, text);
                ask(index % turns, length, r, text)
            });
        }
        Family::new(format!("{name}, over {length}"), mode, texts * turns, move |_, r, text| {
            (0..=length as usize + r.below(4)).for_each(|_| text.push(r.byte_of(alphabet)));
            let length = text.len() as u64;
            let turn = r.below(of_each(length) as usize) as u64;
            ask(turn, length, r, text)
        })
    }
}

/// The greatest length, and how many texts there are up to it.
fn reach(k: u64, most: u64, of_each: impl Fn(u64) -> u64) -> (u64, u64) {
    let (mut length, mut texts, mut next) = (0, 1, k);
    while (texts + next) * of_each(length + 1) <= most {
        texts += next;
        next *= k;
        length += 1;
    }
    (length, texts)
}
