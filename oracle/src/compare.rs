//! The published lexer, or Next stated a second time, beside another program that answers the same records: texts by many rules, answers
//! byte for byte. And the second statement beside the published lexer, and beside SQLite's tokenizer; the cut beside SQLite's
//! `sqlite3_complete`; and lists to be checked or paired, for a program that is told what to answer.

mod alphabets;
mod checks;
mod complete;
mod corpus;
mod cuts;
mod damage;
mod families;
mod integers;
mod lexemes;
mod limits;
mod lists;
mod literals;
mod makers;
mod near;
mod newlines;
mod pairs;
mod parts;
mod random;
mod shares;
mod statements;
mod streams;
mod tokenizer;
mod triggers;
mod walks;
mod words;
mod written;

use crate::modes::Mode;
use crate::records;
use crate::second::Profile;
use crate::walk::Source;
pub use alphabets::ALPHABETS;
pub use checks::checks;
pub use complete::complete;
use corpus::Corpus;
use families::{Family, Plan};
pub use pairs::{brackets, pairs};
use random::Random;
use std::io::{self, Error, Read, Write};
use std::path::Path;
use std::process::{Command, ExitStatus, Stdio};
use std::sync::atomic::{AtomicU64, Ordering};
use std::sync::Mutex;
use std::thread;
pub use tokenizer::{tokenizer, tokens};

/// As much of a long answer is shown, around the place where it is another.
const SHOWN: usize = 4_000;

/// COUNT SEED FOLDER PROGRAM [ARG..]: about COUNT texts; `-` for no folder. True if the program answers as the published lexer does, and
/// under `sqlite` as the second statement.
pub fn compare(out: &mut impl Write, args: &[String]) -> io::Result<bool> {
    let (wanted, program) = Wanted::read(args)?;
    let families = shares::all(wanted.plan());
    let Some(texts) = wanted.ask(out, &families, Other::Program(program))? else { return Ok(false) };
    count(out, "total", texts.turso)?;
    count(out, "sqlite: total", texts.sqlite)?;
    count(out, "write: total", texts.unlexed)?;
    Ok(true)
}

/// COUNT SEED FOLDER: the same texts, but for single words, scripts and literals, all under `turso`. True if the second statement answers as
/// the published lexer does.
pub fn second(out: &mut impl Write, args: &[String]) -> io::Result<bool> {
    let (wanted, _) = Wanted::read(args)?;
    let families = shares::all(wanted.plan()).into_iter().map(|family| family.under(Profile::Turso));
    let asked = |family: &Family| {
        matches!((family.mode)(0), Mode::Next | Mode::Sums | Mode::List(_) | Mode::Part(..) | Mode::Cut)
    };
    let families: Vec<_> = families.filter(asked).collect();
    let Some(texts) = wanted.ask(out, &families, Other::Second)? else { return Ok(false) };
    count(out, "total", texts.turso)?;
    Ok(true)
}

fn count(out: &mut impl Write, title: &str, texts: u64) -> io::Result<()> {
    writeln!(out, "{title:<40} {texts:>10} texts, no difference")?;
    out.flush()
}

/// How many texts were asked.
#[derive(Default)]
struct Asks {
    /// Held to the published lexer.
    turso: u64,
    /// Held to the second statement.
    sqlite: u64,
    /// To be written as literals, or paired: no lexer plays a part.
    unlexed: u64,
}

impl Asks {
    fn add(&mut self, family: &Family) {
        let texts = match ((family.mode)(0), family.profile) {
            (Mode::Write | Mode::Pair(_), _) => &mut self.unlexed,
            (_, Profile::Turso) => &mut self.turso,
            (_, Profile::Sqlite) => &mut self.sqlite,
        };
        *texts += family.count;
    }
}

/// What the arguments ask for.
struct Wanted {
    count: u64,
    seed: u64,
    corpus: Corpus,
}

impl Wanted {
    /// COUNT SEED FOLDER, and what follows.
    fn read(args: &[String]) -> io::Result<(Self, &[String])> {
        let [count, seed, folder, behind @ ..] = args else {
            return Err(Error::other(crate::modes::USAGE));
        };
        let number = |word: &String| word.parse::<u64>().map_err(Error::other);
        let corpus = if folder == "-" { Corpus::default() } else { Corpus::read(Path::new(folder))? };
        Ok((Wanted { count: number(count)?, seed: number(seed)?, corpus }, behind))
    }

    fn plan(&self) -> Plan<'_> {
        Plan { count: self.count, seed: self.seed, corpus: &self.corpus, profile: Profile::Turso }
    }

    /// Says how many texts each family has, and gives their number in all; none after a difference, which is told.
    fn ask(&self, out: &mut impl Write, families: &[Family], other: Other) -> io::Result<Option<Asks>> {
        let (mut texts, seed) = (Asks::default(), self.seed);
        for (place, family) in families.iter().enumerate() {
            let asked = Asked { family, place: place as u64, seed, other };
            if let Some((index, told)) = asked.all()? {
                writeln!(out, "a difference: text {index} of '{}', seed {seed}\n{told}", family.title())?;
                return Ok(None);
            }
            count(out, &family.title(), family.count)?;
            texts.add(family);
        }
        Ok(Some(texts))
    }
}

/// Who is compared.
#[derive(Clone, Copy)]
enum Other<'a> {
    /// A program, asked under the family's profile.
    Program(&'a [String]),
    /// The second statement under `turso`, which the published lexer has.
    Second,
}

impl Other<'_> {
    fn answers(self, mode: Mode, profile: Profile, records: &[u8]) -> io::Result<(Vec<u8>, ExitStatus)> {
        let Other::Program(program) = self else {
            let (mut answers, second) = (Vec::new(), Source::Second(Profile::Turso));
            mode.answer(second, records, &mut answers)?;
            return Ok((answers, ExitStatus::default()));
        };
        ask(program, &mode.words(profile), records)
    }

    fn name(self) -> &'static str {
        match self {
            Other::Program(_) => "the program",
            Other::Second => Source::Second(Profile::Turso).name(),
        }
    }
}

struct Asked<'a> {
    family: &'a Family<'a>,
    place: u64,
    seed: u64,
    other: Other<'a>,
}

/// A text that was answered otherwise: its number, its record and the two answers.
type Difference = (u64, String);

impl Asked<'_> {
    /// Asks for the whole family, a piece on each processor at a time, and gives the first difference.
    fn all(&self) -> io::Result<Option<Difference>> {
        let next = AtomicU64::new(0);
        let found = Mutex::new(Vec::new());
        thread::scope(|scope| {
            let workers: Vec<_> = (0..thread::available_parallelism()?.get())
                .map(|_| scope.spawn(|| self.pieces(&next, &found)))
                .collect();
            workers.into_iter().try_for_each(|worker| worker.join().expect("a worker panicked"))
        })?;
        Ok(found.into_inner().expect("no worker panicked").into_iter().min())
    }

    /// Piece after piece, until none is left or a difference is found.
    fn pieces(&self, next: &AtomicU64, found: &Mutex<Vec<Difference>>) -> io::Result<()> {
        let pieces = self.family.count.div_ceil(self.family.piece);
        loop {
            let piece = next.fetch_add(1, Ordering::Relaxed);
            if piece >= pieces {
                return Ok(());
            }
            if let Some(difference) = self.piece(piece)? {
                next.store(pieces, Ordering::Relaxed);
                found.lock().expect("no worker panicked").push(difference);
            }
        }
    }

    fn piece(&self, piece: u64) -> io::Result<Option<Difference>> {
        let from = piece * self.family.piece;
        let (mode, profile) = ((self.family.mode)(piece), self.family.profile);
        let (mut asked, mut expected, mut text) = (Vec::new(), Vec::new(), Vec::new());
        let mut ends = vec![(0, 0)];
        for index in from..self.family.count.min(from + self.family.piece) {
            text.clear();
            let offset = (self.family.make)(index, &mut Random::new(self.seed, self.place, index), &mut text);
            records::push(&mut asked, offset, &text);
            mode.print(Source::of(profile), &mut expected, offset, &text)?;
            ends.push((asked.len(), expected.len()));
        }
        let (answers, status) = self.other.answers(mode, profile, &asked)?;
        let difference = first_difference(&expected, &answers);
        if difference.is_none() && !status.success() {
            return Err(Error::other(format!("the program ended with {status}")));
        }
        Ok(difference.map(|place| {
            let index = ends.partition_point(|&(_, end)| end <= place).min(ends.len() - 1) - 1;
            let ((record, start), (record_end, end)) = (ends[index], ends[index + 1]);
            let answers = [&expected[start..end], &answers[start.min(answers.len())..]];
            (from + index as u64, self.tell(mode, &asked[record..record_end], answers, place - start))
        }))
    }

    /// The mode, the record in hexadecimal and both answers; the other's up to its empty line.
    fn tell(&self, mode: Mode, record: &[u8], [expected, answers]: [&[u8]; 2], place: usize) -> String {
        let end = answers.windows(2).position(|two| two == b"\n\n").unwrap_or(answers.len());
        let hex: String = record.iter().map(|byte| format!("{byte:02x}")).collect();
        let [expected, answer] = [expected, &answers[..end]].map(|row| {
            let from = if row.len() > SHOWN { place.saturating_sub(SHOWN / 2).min(row.len()) } else { 0 };
            let shown = &row[from..row.len().min(from + SHOWN)];
            String::from_utf8_lossy(shown).trim_end_matches('\n').to_string()
        });
        let profile = self.family.profile;
        let source = if let Mode::Write | Mode::Pair(_) = mode { "the oracle" } else { Source::of(profile).name() };
        let mode = mode.words(profile).join(" ");
        format!(
            "mode {mode}; the answers part at byte {place}\noffset, length and text: {hex}\n\
             -- from {source}:\n{expected}\n-- {}:\n{answer}",
            self.other.name()
        )
    }
}

/// What the program writes when it is asked the records with these words behind its own, and how it ends.
fn ask(program: &[String], words: &[String], records: &[u8]) -> io::Result<(Vec<u8>, ExitStatus)> {
    let (name, args) = program.split_first().ok_or_else(|| Error::other("no program is named"))?;
    let mut child = Command::new(name).args(args).args(words).stdin(Stdio::piped()).stdout(Stdio::piped()).spawn()?;
    let (mut stdin, mut stdout) = (child.stdin.take().expect("piped"), child.stdout.take().expect("piped"));
    let mut answers = Vec::new();
    thread::scope(|scope| {
        // A program that stops early leaves a broken pipe; its answers show it.
        scope.spawn(move || stdin.write_all(records));
        stdout.read_to_end(&mut answers)
    })?;
    Ok((answers, child.wait()?))
}

/// The first place at which two rows of bytes part.
fn first_difference(a: &[u8], b: &[u8]) -> Option<usize> {
    (a != b).then(|| a.iter().zip(b).take_while(|(x, y)| x == y).count())
}
