//! The cut beside SQLite's `sqlite3_complete` (`oracle/sqlite/tokens.c`), which says of a text whether its last statement has ended: the
//! same, or one of two differences.

use super::cuts::CUT;
use super::families::Family;
use super::random::Random;
use super::{ask, count, triggers, Wanted};
use crate::list::{self, Statement};
use crate::records;
use crate::token::TokenType::{self, TK_CREATE, TK_END, TK_EXPLAIN, TK_PLAN, TK_QUERY, TK_SEMI, TK_TEMP, TK_TRIGGER};
use crate::walk::Source;
use std::io::{self, Error, Write};

/// Where SQLite sees a trigger's head that is none, and what differs only then; `docs/DIFFERENCES.md` has each.
struct Difference {
    name: &'static str,
    /// A text that has ended, and not for SQLite.
    text: &'static str,
    rule: Theirs,
}

/// In which of two ways heads are taken as SQLite takes them.
#[derive(Clone, Copy)]
struct Theirs {
    explain: bool,
    temp: bool,
}

const BOTH: Theirs = Theirs { explain: true, temp: true };
const DIFFERENCES: [Difference; 2] = [
    Difference {
        name: "words behind EXPLAIN",
        text: "explain a create trigger b;",
        rule: Theirs { temp: false, ..BOTH },
    },
    Difference { name: "TEMP again", text: "create temp temp trigger a;", rule: Theirs { explain: false, ..BOTH } },
];

/// COUNT SEED - PROGRAM [ARG..]: about COUNT texts. True if the program, SQLite's `sqlite3_complete`, says of each what the cut gives, or
/// what it would give with the two differences, and each of them is met.
pub fn complete(out: &mut impl Write, args: &[String]) -> io::Result<bool> {
    let (wanted, program) = Wanted::read(args)?;
    let mut held = Held { program, met: [0; 2] };
    let mut texts = 0;
    for (place, family) in families(wanted.count, wanted.seed).iter().enumerate() {
        for piece in 0..family.count.div_ceil(family.piece) {
            let made = family.texts(piece, place as u64, wanted.seed);
            if let Some(text) = held.piece(&made)? {
                writeln!(
                    out,
                    "a difference on no list, in '{}', seed {}\n{}",
                    family.name,
                    wanted.seed,
                    text.escape_ascii()
                )?;
                return Ok(false);
            }
        }
        count(out, &family.name, family.count)?;
        texts += family.count;
    }
    for (difference, met) in DIFFERENCES.iter().zip(held.met) {
        writeln!(out, "difference: {:<28} {met:>10} texts, as in {}", difference.name, difference.text)?;
    }
    count(out, "total", texts)?;
    Ok(held.met.iter().all(|&met| met > 0))
}

/// The two texts; sequences of words; statements.
fn families<'a>(texts: u64, seed: u64) -> [Family<'a>; 3] {
    let statements = |_, r: &mut Random, text: &mut Vec<u8>| triggers::several(r, text);
    [
        Family::new("differences", CUT, DIFFERENCES.len() as u64, |index, _, text| {
            text.extend(DIFFERENCES[index as usize].text.bytes());
            0
        }),
        triggers::words("trigger words", texts / 8 * 5, seed),
        Family::new("triggers", CUT, texts / 8 * 3, statements),
    ]
}

struct Held<'a> {
    program: &'a [String],
    /// How often each difference alone makes SQLite's answer of another one.
    met: [u64; 2],
}

impl Held<'_> {
    /// Asks SQLite for these texts, and gives the first of which it says something else than is expected.
    fn piece<'a>(&mut self, texts: &'a [Vec<u8>]) -> io::Result<Option<&'a [u8]>> {
        let mut asked = Vec::new();
        texts.iter().for_each(|text| records::push(&mut asked, 0, text));
        let (answers, status) = ask(self.program, &["complete".to_string()], &asked)?;
        if !status.success() || answers.len() != 2 * texts.len() {
            return Err(Error::other(format!("not a line for each text; the program ended with {status}")));
        }
        for (text, answer) in texts.iter().zip(answers.chunks(2)) {
            let said = answer == b"1\n";
            if said != ended(|kinds| theirs(BOTH, kinds), text)? {
                return Ok(Some(text));
            }
            let ours = ended(list::ends, text)?;
            for (difference, met) in DIFFERENCES.iter().zip(&mut self.met).filter(|_| said != ours) {
                *met += u64::from(ended(|kinds| theirs(difference.rule, kinds), text)? == said);
            }
        }
        Ok(None)
    }
}

/// Whether the text has a statement, and ends with its semicolon but for blanks and comments.
fn ended(ends: impl Fn(&[TokenType]) -> bool, text: &[u8]) -> io::Result<bool> {
    let mut offset = 0;
    loop {
        match list::cut_by(&ends, Source::Published, text, offset)? {
            Statement::Cut(_, _, _, end) => offset = end,
            Statement::End(_) => return Ok(offset > 0),
            Statement::Open(..) | Statement::Refusal(..) => return Ok(false),
        }
    }
}

/// Request 3's rule with heads taken as SQLite takes them, in either way: behind EXPLAIN any tokens may stand but five, and TEMP again.
fn theirs(rule: Theirs, kinds: &[TokenType]) -> bool {
    let told = |kind: &TokenType| matches!(kind, TK_EXPLAIN | TK_CREATE | TK_TEMP | TK_TRIGGER | TK_END);
    let create = match kinds {
        [TK_EXPLAIN, behind @ ..] if rule.explain => &behind[behind.iter().position(told).unwrap_or(behind.len())..],
        [TK_EXPLAIN, TK_QUERY, TK_PLAN, behind @ ..] | [TK_EXPLAIN, behind @ ..] => behind,
        _ => kinds,
    };
    let [TK_CREATE, behind @ ..] = create else { return true };
    let temps = behind.iter().take_while(|&&kind| kind == TK_TEMP).count();
    let trigger = (temps < 2 || rule.temp) && behind.get(temps) == Some(&TK_TRIGGER);
    !trigger || kinds.ends_with(&[TK_SEMI, TK_END])
}
