//! What is asked of each record, and how the answers are printed; an empty line ends those of a record.

pub mod buffers;

use crate::lexer::{is_quotable_keyword, word_kind};
use crate::list::{self, Slice, Statement};
use crate::pairs;
use crate::records;
use crate::script::{self, Call};
use crate::second::Profile;
use crate::spans;
use crate::stream::{Answer, Stream};
use crate::token::TokenType::{self, TK_FLOAT, TK_INTEGER};
use crate::walk::{walk, Source, Stop};
use std::io::{self, Write};

pub const USAGE: &str = "\
modes: next [PROFILE], sums [PROFILE], list N [PROFILE] (N 0 to 327675), part N A [PROFILE] (A 0 to 4294967295), cut [PROFILE],
stream [PROFILE], literal [PROFILE], word, write, pair N, replay (records in, answers out); answers; ahead;
compare COUNT SEED FOLDER PROGRAM [ARG..]; brackets COUNT SEED FOLDER PROGRAM [ARG..]; checks COUNT SEED FOLDER (lists out);
pairs COUNT SEED FOLDER (lists out); second COUNT SEED FOLDER; tokenizer COUNT SEED FOLDER PROGRAM [ARG..]; tokens PROGRAM [ARG..] (records in);
complete COUNT SEED - PROGRAM [ARG..]. PROFILE is turso, also where none is named, or sqlite; FOLDER is - for none";

#[derive(Clone, Copy)]
pub enum Mode {
    Next,
    /// Next, with how many digits and underscores each token has.
    Sums,
    /// With so many numbers lent.
    List(usize),
    /// With so many numbers lent, and such an allowance of lexemes.
    Part(usize, u32),
    Cut,
    /// The text is a script of a stream's calls.
    Stream,
    /// The text is behind a span's length and a buffer's.
    Literal,
    Word,
    /// The offset is a buffer's length.
    Write,
    /// The text is a list's numbers. With so many numbers lent.
    Pair(usize),
}

impl Mode {
    /// From the words that name it and the profile, as a program's arguments.
    pub fn read(words: &[String]) -> Option<(Self, Profile)> {
        let mut words: Vec<_> = words.iter().map(String::as_str).collect();
        match words[..] {
            ["word"] => return Some((Mode::Word, Profile::Turso)),
            ["write"] => return Some((Mode::Write, Profile::Turso)),
            ["pair", n] => return Some((Mode::Pair(numbers(n)?), Profile::Turso)),
            _ => {}
        }
        let profile = words.last().and_then(|word| Profile::read(word));
        if profile.is_some() {
            words.pop();
        }
        let mode = match words[..] {
            ["next"] => Mode::Next,
            ["sums"] => Mode::Sums,
            ["list", n] => Mode::List(numbers(n)?),
            ["part", n, allowance] => Mode::Part(numbers(n)?, allowance.parse().ok()?),
            ["cut"] => Mode::Cut,
            ["stream"] => Mode::Stream,
            ["literal"] => Mode::Literal,
            _ => return None,
        };
        Some((mode, profile.unwrap_or(Profile::Turso)))
    }

    /// The words that name it. Of the profile only `sqlite`, so that a program without profiles can be asked too.
    pub fn words(self, profile: Profile) -> Vec<String> {
        let mut words = match self {
            Mode::Next => vec!["next".to_string()],
            Mode::Sums => vec!["sums".to_string()],
            Mode::List(n) => vec!["list".to_string(), n.to_string()],
            Mode::Part(n, allowance) => vec!["part".to_string(), n.to_string(), allowance.to_string()],
            Mode::Cut => vec!["cut".to_string()],
            Mode::Stream => vec!["stream".to_string()],
            Mode::Literal => vec!["literal".to_string()],
            Mode::Word => vec!["word".to_string()],
            Mode::Write => vec!["write".to_string()],
            Mode::Pair(n) => vec!["pair".to_string(), n.to_string()],
        };
        if profile == Profile::Sqlite {
            words.push("sqlite".to_string());
        }
        words
    }

    /// Whether it can be asked of this record.
    fn takes(self, offset: usize, text: &[u8]) -> bool {
        match self {
            Mode::Literal => spans::read(offset, text).is_some(),
            Mode::Write => offset <= buffers::LONGEST_WRITTEN,
            Mode::Pair(_) => crate::numbers::read(text).is_some(),
            _ => true,
        }
    }

    /// Answers each record of the input; false after a bad one.
    pub fn answer(self, source: Source, input: impl io::Read, out: &mut impl Write) -> io::Result<bool> {
        let takes = |offset, text: &[u8]| self.takes(offset, text);
        records::answer(input, out, takes, |out, offset, text| self.print(source, out, offset, text))
    }

    /// Answers a record that it takes.
    pub fn print(self, source: Source, out: &mut impl Write, offset: usize, text: &[u8]) -> io::Result<()> {
        match self {
            Mode::Next => print_walk(source, out, offset, text, |_, _| String::new()),
            Mode::Sums => print_walk(source, out, offset, text, sums),
            Mode::List(n) => print_list(source, out, n, offset, text),
            Mode::Part(n, allowance) => print_part(source, out, n, allowance, offset, text),
            Mode::Cut => print_cut(source, out, offset, text),
            Mode::Stream => print_stream(source, out, text),
            Mode::Literal => buffers::print_literal(source, out, offset, text),
            Mode::Word => print_word(out, text),
            Mode::Write => buffers::print_write(out, offset, text),
            Mode::Pair(n) => print_pair(out, n, text),
        }
    }
}

/// How many numbers are lent.
fn numbers(word: &str) -> Option<usize> {
    word.parse().ok().filter(|&n| n <= list::MOST)
}

/// What the program `replay` prints of a record: Next with sums, so by a reader, List with too few, just enough and more numbers, and the cut.
pub fn print_replay(out: &mut impl Write, offset: usize, text: &[u8]) -> io::Result<()> {
    let source = Source::Published;
    let (_, records) = list::list(source, &mut vec![0; list::MOST], text, offset)?;
    Mode::Sums.print(source, out, offset, text)?;
    Mode::Sums.print(source, out, offset, text)?;
    let full = list::WIDTH * records;
    for n in (0..2 * list::WIDTH + 2).chain([full.saturating_sub(1), full, full + 4]) {
        Mode::List(n).print(source, out, offset, text)?;
    }
    Mode::Cut.print(source, out, offset, text)
}

/// A line for each token, with what `more` says of its kind and bytes, and a last line for how the walk stopped.
fn print_walk(
    source: Source,
    out: &mut impl Write,
    offset: usize,
    text: &[u8],
    more: impl Fn(TokenType, &[u8]) -> String,
) -> io::Result<()> {
    let mut count = 0;
    let stop = walk(source, text, offset, |kind, start, length| {
        count += 1;
        writeln!(out, "{kind:?}\t{start}\t{length}{}", more(kind, &text[start..start + length]))
    })?;
    match stop {
        Stop::End(offset) => writeln!(out, "END\t{offset}\t{count}\n"),
        Stop::Refusal(name, start, length, offset) => writeln!(out, "{name}\t{start}\t{length}\t{offset}\n"),
    }
}

/// How many digits and underscores a number has; other tokens have none. The published lexer does not count them.
fn sums(kind: TokenType, bytes: &[u8]) -> String {
    let count = |bytes: &[u8], counts: fn(&u8) -> bool| bytes.iter().filter(|byte| counts(byte)).count();
    let digits = match (kind, bytes) {
        (TK_INTEGER, [b'0', b'x' | b'X', behind @ ..]) => count(behind, u8::is_ascii_hexdigit),
        (TK_INTEGER | TK_FLOAT, _) => count(bytes, u8::is_ascii_digit),
        _ => return "\t0\t0".to_string(),
    };
    format!("\t{digits}\t{}", count(bytes, |&byte| byte == b'_'))
}

/// The numbers lent as they are afterwards, then how List stopped and the number of records.
fn print_list(source: Source, out: &mut impl Write, n: usize, offset: usize, text: &[u8]) -> io::Result<()> {
    let mut numbers = vec![BEFORE; n];
    let (stop, records) = list::list(source, &mut numbers, text, offset)?;
    print_numbers(out, &numbers)?;
    match stop {
        Stop::End(offset) => writeln!(out, "END\t{offset}\t{records}\n"),
        Stop::Refusal(name, start, length, offset) => {
            writeln!(out, "{name}\t{start}\t{length}\t{offset}\t{records}\n")
        }
    }
}

/// The same of a list without blanks, a slice at a time, and the number of lexemes that it spent.
fn print_part(
    source: Source,
    out: &mut impl Write,
    n: usize,
    allowance: u32,
    offset: usize,
    text: &[u8],
) -> io::Result<()> {
    let mut numbers = vec![BEFORE; n];
    let (slice, records, spent) = list::part(source, &mut numbers, text, offset, allowance)?;
    print_numbers(out, &numbers)?;
    match slice {
        Slice::Stop(Stop::End(offset)) => write!(out, "END\t{offset}")?,
        Slice::Stop(Stop::Refusal(name, start, length, offset)) => write!(out, "{name}\t{start}\t{length}\t{offset}")?,
        Slice::Paused(start) => write!(out, "Paused\t{start}\t0\t{start}")?,
    }
    writeln!(out, "\t{records}\t{spent}\n")
}

/// The numbers lent as they are afterwards, then the deepest nesting, or the refusal and its index.
fn print_pair(out: &mut impl Write, n: usize, text: &[u8]) -> io::Result<()> {
    let list = crate::numbers::read(text).expect("such a record is not taken");
    let mut lent = vec![BEFORE; n];
    let answer = pairs::pair(&list, &mut lent);
    print_numbers(out, &lent)?;
    match answer {
        Ok(deepest) => writeln!(out, "DEEPEST\t{deepest}\n"),
        Err((refusal, index)) => writeln!(out, "{refusal:?}\t{index}\n"),
    }
}

/// What each number of a list is beforehand. No record and no partner has it, so that the numbers left alone are seen.
const BEFORE: u32 = u32::MAX;

fn print_numbers(out: &mut impl Write, numbers: &[u32]) -> io::Result<()> {
    for (place, number) in numbers.iter().enumerate() {
        write!(out, "{}{number}", if place > 0 { " " } else { "" })?;
    }
    writeln!(out)
}

fn print_cut(source: Source, out: &mut impl Write, offset: usize, text: &[u8]) -> io::Result<()> {
    match list::cut(source, text, offset)? {
        Statement::Cut(start, length, any, end) => writeln!(out, "CUT\t{start}\t{length}\t{}\t{end}\n", u8::from(any)),
        Statement::Open(start, length, end) => writeln!(out, "OPEN\t{start}\t{length}\t{end}\n"),
        Statement::End(end) => writeln!(out, "END\t{end}\t0\t{end}\n"),
        Statement::Refusal(name, start, length, offset) => writeln!(out, "{name}\t{start}\t{length}\t{offset}\n"),
    }
}

/// The answers to the script's calls of one stream. A part is offered again, less what was taken, while a token comes.
fn print_stream(source: Source, out: &mut impl Write, mut script: &[u8]) -> io::Result<()> {
    let mut stream = Stream::new(source);
    while !script.is_empty() {
        let Some((call, behind)) = script::first(script) else {
            writeln!(out, "BADSCRIPT")?;
            break;
        };
        match call {
            Call::Part(mut part) => loop {
                let (answer, taken) = stream.offer(part);
                print_answer(out, &answer, taken)?;
                part = &part[taken..];
                if !matches!(answer, Answer::Token(..)) {
                    break;
                }
            },
            Call::Finish => print_answer(out, &stream.finish(), 0)?,
        }
        script = behind;
    }
    writeln!(out)
}

fn print_answer(out: &mut impl Write, answer: &Answer, taken: usize) -> io::Result<()> {
    match *answer {
        Answer::Token(kind, start, length) => writeln!(out, "{kind:?}\t{start}\t{length}\t{taken}"),
        Answer::More => writeln!(out, "More\t{taken}"),
        Answer::Stop(Stop::End(offset)) => writeln!(out, "END\t{offset}"),
        Answer::Stop(Stop::Refusal(name, start, length, offset)) => {
            writeln!(out, "{name}\t{start}\t{length}\t{offset}\t{taken}")
        }
    }
}

/// The word's kind and whether it is a keyword that wants quoting.
fn print_word(out: &mut impl Write, word: &[u8]) -> io::Result<()> {
    let (kind, quotable) = (word_kind(word), u8::from(is_quotable_keyword(word)));
    writeln!(out, "{kind:?}\t{quotable}\n")
}
