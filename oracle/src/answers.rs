//! The fixed list: the published lexer's answers to the texts of `texts`, a line each.

use crate::lexer::{is_quotable_keyword, word_kind};
use crate::texts::{self, Question};
use crate::walk::{walk, Source, Stop};
use std::collections::BTreeSet;
use std::fmt::Write as _;
use std::io::{self, Write};

const HEAD: &str = "\
# Answers of the published lexer (turso_parser 0.8.3, src/lexer.rs unchanged). Tab-parted. HEX is - for the empty text.
# N HEX OFFSET ANSWERS : Next walked from OFFSET; ANSWERS parted by one blank: KIND,start,length for each token, then
#   END,offset  or  REFUSAL,spanstart,spanlength,offset   (OffsetPastEnd is added; the Rust gives None there)
# W HEX KIND true|false : the kind that the keyword lookup gives for these bytes, and is_quotable_keyword
";

/// 36 kinds that are no keyword and 140 that are; TK_EOF, TK_ISNOT and TK_ANY are never returned.
const KINDS: usize = 176;
/// The seven that the published lexer gives, and OffsetPastEnd.
const REFUSALS: usize = 8;

/// The names that the N lines have shown.
#[derive(Default)]
struct Met {
    kinds: BTreeSet<String>,
    refusals: BTreeSet<&'static str>,
}

pub fn print(out: &mut impl Write) -> io::Result<()> {
    out.write_all(HEAD.as_bytes())?;
    let mut met = Met::default();
    for question in texts::all() {
        match question {
            Question::Next(text, offset) => {
                let answers = answers(&text, offset, &mut met)?;
                writeln!(out, "N\t{}\t{offset}\t{answers}", hex(&text))?;
            }
            Question::Word(word) => {
                let (kind, quotable) = (word_kind(&word), is_quotable_keyword(&word));
                writeln!(out, "W\t{}\t{kind:?}\t{quotable}", hex(&word))?;
            }
        }
    }
    assert_eq!(met.kinds.len(), KINDS, "a kind is missing from the list");
    assert_eq!(met.refusals.len(), REFUSALS, "a refusal is missing");
    Ok(())
}

fn answers(text: &[u8], offset: usize, met: &mut Met) -> io::Result<String> {
    let mut line = String::new();
    let stop = walk(Source::Published, text, offset, |kind, start, length| {
        met.kinds.insert(format!("{kind:?}"));
        line += &format!("{kind:?},{start},{length} ");
        Ok(())
    })?;
    line += &match stop {
        Stop::End(offset) => format!("END,{offset}"),
        Stop::Refusal(name, start, length, offset) => {
            met.refusals.insert(name);
            format!("{name},{start},{length},{offset}")
        }
    };
    Ok(line)
}

fn hex(text: &[u8]) -> String {
    if text.is_empty() {
        return "-".to_string();
    }
    text.iter().fold(String::new(), |mut row, byte| {
        let _ = write!(row, "{byte:02x}"); // a String takes everything
        row
    })
}
