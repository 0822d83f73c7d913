//! Request 8, measured: how many bytes behind a lexeme of each class it takes until no byte changes it any more; and that a walk's answers
//! whose spans end two bytes or more before the text's end stay when bytes are added.

use crate::compare::ALPHABETS;
use crate::second::{self, Profile};
use crate::token::TokenType;
use crate::walk::{walk, Source, Stop};
use std::io::{self, Write};

/// Every text of an alphabet is tried up to the length at which there are so many.
const MOST: usize = 600_000;

const PROFILES: [Profile; 2] = [Profile::Turso, Profile::Sqlite];

/// A token's kind or a refusal's name, span start and length, and the offset after it.
type Given = (Option<TokenType>, &'static str, usize, usize, usize);

/// What is known of a text: of its first lexeme class and length, and the answers of its walk, under each profile.
#[derive(Clone, Default)]
struct Known {
    lexemes: [(usize, usize); 2],
    walks: [Vec<Given>; 2],
}

impl Known {
    fn of(text: &[u8]) -> io::Result<Self> {
        let mut known = Known::default();
        for (place, &profile) in PROFILES.iter().enumerate() {
            let (class, lexeme) = second::longest(profile, text);
            known.lexemes[place] = (class, lexeme.length);
            let walked = &mut known.walks[place];
            let stop = walk(Source::of(profile), text, 0, |kind, start, length| {
                walked.push((Some(kind), "", start, length, start + length));
                Ok(())
            })?;
            if let Stop::Refusal(name, start, length, offset) = stop {
                walked.push((None, name, start, length, offset));
            }
        }
        Ok(known)
    }
}

#[derive(Default)]
struct Measured {
    texts: u64,
    /// The most bytes behind a lexeme that it took, by class and profile.
    needed: [[usize; 2]; second::CLASSES.len()],
    /// A text whose last byte changed an answer that ended two bytes before it.
    changed: Option<Vec<u8>>,
}

impl Measured {
    /// All texts that go on behind this one with up to `more` bytes.
    fn grow(&mut self, alphabet: &[u8], text: &mut Vec<u8>, known: &Known, more: usize) -> io::Result<()> {
        for &byte in alphabet {
            text.push(byte);
            let now = Known::of(text)?;
            self.texts += 1;
            if text.len() > 1 {
                self.note(text, known, &now);
            }
            if more > 1 {
                self.grow(alphabet, text, &now, more - 1)?;
            }
            text.pop();
        }
        Ok(())
    }

    /// What the text's last byte changed. Which answers are final is asked from byte to byte: so they stay however many are added.
    fn note(&mut self, text: &[u8], before: &Known, now: &Known) {
        let length = text.len() - 1;
        for place in 0..PROFILES.len() {
            let (class, lexeme) = before.lexemes[place];
            if now.lexemes[place] != (class, lexeme) {
                let needed = &mut self.needed[class][place];
                *needed = (*needed).max(length - lexeme + 1);
            }
            let walked = &before.walks[place];
            let stays = walked.partition_point(|given| given.2 + given.3 + 2 <= length);
            if !now.walks[place].starts_with(&walked[..stays]) {
                self.changed = Some(text.to_vec());
            }
        }
    }
}

/// Prints how many bytes each class needed, under `turso` and under `sqlite`, in the order of `docs/CLASSES.md`. True if no final answer
/// changed.
pub fn ahead(out: &mut impl Write) -> io::Result<bool> {
    let mut measured = Measured::default();
    for (_, alphabet) in ALPHABETS {
        let (mut most, mut texts) = (0, 1);
        while texts * alphabet.len() <= MOST {
            (most, texts) = (most + 1, texts * alphabet.len());
        }
        measured.grow(alphabet, &mut Vec::new(), &Known::default(), most)?;
    }
    for [turso, sqlite] in measured.needed {
        writeln!(out, "{turso} {sqlite}")?;
    }
    writeln!(out, "texts {}", measured.texts)?;
    if let Some(text) = &measured.changed {
        writeln!(out, "an answer was changed by the last byte of: {}", text.escape_ascii())?;
    }
    Ok(measured.changed.is_none())
}
