//! Next under `sqlite`, as it is stated a second time, beside SQLite's own tokenizer (`oracle/sqlite/tokens.c`): at every place of every
//! text the same kind and length, or the difference that the list has for it.

mod codes;
mod differences;

use super::families::Family;
use super::{ask, count, near, walks, Plan, Wanted};
use crate::modes::Mode;
use crate::records;
use crate::token::TokenType;
use codes::Codes;
use differences::{expected, DIFFERENCES};
use std::io::{self, Error, Read, Write};

/// What a lexer gives at a place: a token's kind and length, or a refusal's span, its start counted from the place.
#[derive(Clone, Copy, PartialEq, Eq, Debug)]
pub enum Given {
    Token(TokenType, usize),
    Refused(usize, usize),
}

/// As much of a text is asked, since it is asked at each of its places.
const LONGEST: usize = 64;

/// COUNT SEED FOLDER PROGRAM [ARG..]: about COUNT texts, most of them rich in what the profile reads otherwise. True if the program,
/// SQLite's tokenizer, gives at each place what Next or a difference of the list says, and each difference is met.
pub fn tokenizer(out: &mut impl Write, args: &[String]) -> io::Result<bool> {
    let (wanted, program) = Wanted::read(args)?;
    let mut held = Held { program, codes: Codes::learn(program)?, met: vec![0; DIFFERENCES.len()], places: 0 };
    let mut texts = 0;
    for (place, family) in families(wanted.plan()).iter().enumerate() {
        for piece in 0..family.count.div_ceil(family.piece) {
            let mut made = family.texts(piece, place as u64, wanted.seed);
            made.iter_mut().for_each(|text| text.truncate(LONGEST));
            if let Some(told) = held.piece(&made)? {
                writeln!(out, "a difference on no list, in '{}', seed {}\n{told}", family.name, wanted.seed)?;
                return Ok(false);
            }
        }
        count(out, &family.name, family.count)?;
        texts += family.count;
    }
    for (difference, met) in DIFFERENCES.iter().zip(&held.met) {
        writeln!(
            out,
            "difference: {:<28} {met:>10} places, as in {}",
            difference.name,
            difference.text.escape_ascii()
        )?;
    }
    count(out, "total", texts)?;
    writeln!(out, "{:<40} {:>10} places", "places", held.places)?;
    Ok(held.met.iter().all(|&met| met > 0))
}

/// The texts of the list, alone and among others; those rich in what the profile reads otherwise; an eighth by the rules for Next, and
/// real SQL.
fn families(plan: Plan) -> Vec<Family> {
    let mut families = vec![
        Family::new("differences", walks::NEXT, DIFFERENCES.len() as u64, |index, _, text| {
            text.extend(DIFFERENCES[index as usize].text);
            0
        }),
        Family::new("differences among others", walks::NEXT, plan.count / 10, |_, r, text| {
            for _ in 0..=r.below(3) {
                near::several(r, text);
                text.extend(DIFFERENCES[r.below(DIFFERENCES.len())].text);
            }
            0
        }),
    ];
    families.extend(near::families(plan));
    let eighth = Plan { count: plan.count / 8, ..plan };
    families.extend(walks::families(eighth));
    if plan.corpus.len() > 0 {
        families.extend(walks::real(eighth));
    }
    // Each text once: for a list it would be the same with each length.
    families.retain(|family| matches!((family.mode)(0), Mode::Next | Mode::Sums));
    families
}

struct Held<'a> {
    program: &'a [String],
    codes: Codes,
    /// How often each difference was met.
    met: Vec<u64>,
    places: u64,
}

impl Held<'_> {
    /// Asks the tokenizer for these texts, and tells of the first place where it gives something else than is expected.
    fn piece(&mut self, texts: &[Vec<u8>]) -> io::Result<Option<String>> {
        for (text, answers) in texts.iter().zip(given(self.program, &self.codes, texts)?) {
            for (place, theirs) in answers.into_iter().enumerate() {
                let (expected, difference) = expected(&text[place..]);
                if theirs != expected {
                    let (text, name) =
                        (text.escape_ascii(), difference.map_or("none", |place| DIFFERENCES[place].name));
                    return Ok(Some(format!("at {place} of {text}: {theirs:?}, not {expected:?}; difference: {name}")));
                }
                self.places += 1;
                if let Some(place) = difference {
                    self.met[place] += 1;
                }
            }
        }
        Ok(None)
    }
}

/// What the tokenizer gives at each place of each text.
fn given(program: &[String], codes: &Codes, texts: &[Vec<u8>]) -> io::Result<Vec<Vec<Given>>> {
    let mut asked = Vec::new();
    texts.iter().for_each(|text| records::push(&mut asked, 0, text));
    let (answers, status) = ask(program, &[], &asked)?;
    let answers = String::from_utf8(answers).map_err(Error::other)?;
    let rows = answers.lines().map(|line| codes.read(line)).collect::<io::Result<Vec<_>>>()?;
    let lengths = || rows.iter().map(Vec::len);
    if !status.success() || !lengths().eq(texts.iter().map(Vec::len)) {
        return Err(Error::other(format!("not a token for each place of each text; the program ended with {status}")));
    }
    Ok(rows)
}

/// PROGRAM [ARG..]: for each record of the input, SQLite's tokens in the words of mode `next`, from the text's beginning; where it refuses,
/// `refused` and the span.
pub fn tokens(input: impl Read, out: &mut impl Write, program: &[String]) -> io::Result<bool> {
    let codes = Codes::learn(program)?;
    records::answer(input, out, records::all, |out, _, text| {
        let answers = &given(program, &codes, &[text.to_vec()])?[0];
        let (mut place, mut tokens) = (0, 0);
        while place < text.len() {
            let Given::Token(kind, length) = answers[place] else { break };
            writeln!(out, "{kind:?}\t{place}\t{length}")?;
            (place, tokens) = (place + length, tokens + 1);
        }
        match answers.get(place) {
            Some(Given::Refused(_, length)) => writeln!(out, "refused\t{place}\t{length}\n"),
            _ => writeln!(out, "END\t{place}\t{tokens}\n"),
        }
    })
}
