//! Prints the tokens of a text as the program sqllex does: a line for each with its kind, start and length, then how it ended.
//! tokens [sqlite] [FILE] reads FILE, or standard input; with `sqlite` it lexes under the profile nearer SQLite, which sqllex does not have.
//!
//!     tools/archive target/libcapi.a
//!     rustc --edition 2021 -O -L target -o tokens examples/tokens.rs
use sqllex::{Lexed, Profile};
use std::fs::File;
use std::io::{self, BufWriter, Read, Write};

/// Safe Rust over the library. include/sqllex.h says what each call does and what its caller owes.
mod sqllex {
    #[repr(C)]
    #[derive(Default)]
    struct Answer {
        value: usize,
        start: usize,
        length: usize,
        next: usize,
        digits: usize,
        underscores: usize,
    }

    #[link(name = "capi", kind = "static")]
    extern "C" {
        fn sqllex_next(text: *const u8, text_length: usize, offset: usize, profile: u32, answer: *mut Answer) -> u32;
    }

    pub const LONGEST: usize = 65535;

    /// The profiles that there are, with their numbers: so no status SQLLEX_UNKNOWN_PROFILE comes.
    #[derive(Clone, Copy)]
    pub enum Profile {
        Turso = 0,
        Sqlite = 1,
    }

    pub enum Lexed {
        Token { kind: usize, start: usize, length: usize, next: usize },
        End { next: usize },
        Refused { why: &'static str, start: usize, length: usize, next: usize },
    }

    /// The lexeme at an offset of a text.
    pub fn next(text: &[u8], offset: usize, profile: Profile) -> Lexed {
        let mut answer = Answer::default();
        // SAFETY: a slice has all its bytes, which stay as they are while it is lent; the answer is this function's own.
        let status = unsafe { sqllex_next(text.as_ptr(), text.len(), offset, profile as u32, &mut answer) };
        let Answer { value, start, length, next, .. } = answer;
        match status {
            0 => Lexed::End { next },
            100 => Lexed::Token { kind: value, start, length, next },
            refusal => Lexed::Refused { why: REFUSALS[refusal as usize - 1], start, length, next },
        }
    }

    /// In the order of their numbers, which begin at 1.
    const REFUSALS: [&str; 10] = [
        "UnrecognizedToken", "UnterminatedLiteral", "BadNumber", "BadFractionalPart", "BadExponentPart",
        "MalformedHexInteger", "ExpectedEqualsSign", "OffsetPastEnd", "TooLong", "ListFull",
    ];

    /// The kinds in the order of their numbers, which begin at 0: from the header's lines `#define SQLLEX_TK_NONE 0u` and so on.
    pub fn kind_names() -> Vec<&'static str> {
        let constants =
            include_str!("../include/sqllex.h").lines().filter_map(|line| line.strip_prefix("#define SQLLEX_"));
        constants.filter(|line| line.starts_with("TK_")).filter_map(|line| line.split(' ').next()).collect()
    }
}

fn print_tokens(text: &[u8], profile: Profile, out: &mut impl Write) -> io::Result<()> {
    if text.len() > sqllex::LONGEST {
        return writeln!(out, "TooLong\t0\t0\t0");
    }
    let names = sqllex::kind_names();
    let mut offset = 0;
    let mut tokens = 0;
    loop {
        match sqllex::next(text, offset, profile) {
            Lexed::Token { kind, start, length, next } => {
                writeln!(out, "{}\t{start}\t{length}", names[kind])?;
                tokens += 1;
                offset = next;
            }
            Lexed::End { next } => return writeln!(out, "END\t{next}\t{tokens}"),
            Lexed::Refused { why, start, length, next } => return writeln!(out, "{why}\t{start}\t{length}\t{next}"),
        }
    }
}

fn main() -> io::Result<()> {
    let mut words = std::env::args_os().skip(1).peekable();
    let profile = match words.next_if(|word| word == "sqlite") {
        Some(_) => Profile::Sqlite,
        None => Profile::Turso,
    };
    let input: Box<dyn Read> = match words.next() {
        Some(path) => Box::new(File::open(path)?),
        None => Box::new(io::stdin()),
    };
    // One byte more than sqllex takes, so that a longer text is seen to be too long.
    let mut text = Vec::new();
    input.take(sqllex::LONGEST as u64 + 1).read_to_end(&mut text)?;
    let mut out = BufWriter::new(io::stdout().lock());
    print_tokens(&text, profile, &mut out)?;
    out.flush()
}
