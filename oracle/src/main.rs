//! The published lexer of turso_parser 0.8.3, unchanged, answering on standard output; and Next stated a second time, for the profile
//! that it does not have.

mod ahead;
mod answers;
mod check;
mod compare;
mod kinds;
mod list;
mod literals;
mod modes;
mod numbers;
mod pairs;
mod records;
mod script;
mod second;
mod spans;
mod stream;
mod texts;
mod walk;

use modes::Mode;
use std::io::{self, BufWriter, Write};
use std::process::ExitCode;
use walk::Source;

// The published files are included, not named by #[path], so that rustfmt leaves them alone.

#[allow(dead_code, clippy::enum_variant_names)]
mod error {
    include!("../turso_parser/src/error.rs");
}

#[allow(dead_code)]
mod lexer {
    include!("../turso_parser/src/lexer.rs");

    /// The published file keeps its lookup private; this stands in the same module to reach it.
    pub fn word_kind(word: &[u8]) -> TokenType {
        keyword_or_id_token(word)
    }
}

#[allow(dead_code)]
mod token {
    include!("../turso_parser/src/token.rs");
}

/// The published files name this type as their crate's own.
type Result<T> = std::result::Result<T, error::Error>;

fn main() -> io::Result<ExitCode> {
    let mut out = BufWriter::with_capacity(1 << 16, io::stdout().lock());
    let words: Vec<_> = std::env::args().skip(1).collect();
    let input = || io::stdin().lock();
    let well = match (words.first().map_or("", String::as_str), Mode::read(&words)) {
        (_, Some((mode, profile))) => mode.answer(Source::of(profile), input(), &mut out)?,
        ("replay", _) => records::answer(input(), &mut out, records::all, modes::print_replay)?,
        ("answers", _) => answers::print(&mut out).map(|()| true)?,
        ("ahead", _) => ahead::ahead(&mut out)?,
        ("compare", _) => compare::compare(&mut out, &words[1..])?,
        ("brackets", _) => compare::brackets(&mut out, &words[1..])?,
        ("checks", _) => compare::checks(&mut out, &words[1..])?,
        ("pairs", _) => compare::pairs(&mut out, &words[1..])?,
        ("second", _) => compare::second(&mut out, &words[1..])?,
        ("tokenizer", _) => compare::tokenizer(&mut out, &words[1..])?,
        ("complete", _) => compare::complete(&mut out, &words[1..])?,
        ("tokens", _) => compare::tokens(input(), &mut out, &words[1..])?,
        _ => {
            eprintln!("{}", modes::USAGE);
            return Ok(ExitCode::from(2));
        }
    };
    out.flush()?;
    Ok(ExitCode::from(u8::from(!well)))
}
