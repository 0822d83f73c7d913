//! Lexing packet by packet, stated from request 9's sentences over Next alone. How a lexeme is read byte by byte plays no part: whether an
//! answer is settled is found by trying what may follow.

use crate::second;
use crate::token::TokenType;
use crate::walk::{next, Source, Stop};
use std::cell::RefCell;
use std::collections::HashMap;

/// Request 9: "at most 2,048 bytes of lexeme".
const LONGEST: usize = 2_048;
/// "A part that brings the total over 4,294,967,295 bytes is TooLong".
const MOST: u64 = 4_294_967_295;

const CLOSED: &str = "Closed";
const TOO_LONG: &str = "TooLong";

pub enum Answer {
    /// Kind, start and length.
    Token(TokenType, usize, usize),
    More,
    /// The end of the text, or a refusal; its offsets count from the stream's first byte.
    Stop(Stop),
}

pub struct Stream {
    source: Source,
    /// The bytes taken that no token has.
    held: Vec<u8>,
    /// More was given, since these settle no answer.
    waiting: bool,
    /// The end of the last token given, 0 before any.
    last: usize,
    /// How many bytes were taken.
    total: u64,
    /// A finish call was made.
    finished: bool,
    /// End or a refusal other than Closed was given.
    ended: bool,
}

impl Stream {
    pub fn new(source: Source) -> Self {
        Stream { source, held: Vec::new(), waiting: false, last: 0, total: 0, finished: false, ended: false }
    }

    /// "Each call gives one token and how many bytes it took, no more than settle that answer; or More, exactly when the whole part is
    /// taken and bytes to come could still alter the next answer."
    pub fn offer(&mut self, part: &[u8]) -> (Answer, usize) {
        if self.ended || self.finished {
            return (self.refuse(CLOSED), 0);
        }
        if self.total + part.len() as u64 > MOST {
            self.ended = true;
            return (self.refuse(TOO_LONG), 0);
        }
        let settling = self.settling(part);
        let taken = settling.unwrap_or(part.len());
        self.held.extend(&part[..taken]);
        self.total += taken as u64;
        self.waiting = settling.is_none();
        let answer = if self.waiting { Answer::More } else { self.answer() };
        (answer, taken)
    }

    /// "Then finish calls up to End": what is held is the rest of the text.
    pub fn finish(&mut self) -> Answer {
        if self.ended {
            return self.refuse(CLOSED);
        }
        self.finished = true;
        self.answer()
    }

    /// "The first three carry the end of the last token given (0 before any) as offset, and span (that, 0)."
    fn refuse(&self, name: &'static str) -> Answer {
        Answer::Stop(Stop::Refusal(name, self.last, 0, self.last))
    }

    /// The first answer of what is held.
    fn answer(&mut self) -> Answer {
        let (start, first) = (self.last, first(self.source, &self.held));
        self.ended = first.is_err();
        match first {
            Ok((kind, length)) => {
                self.held.drain(..length);
                self.last += length;
                Answer::Token(kind, start, length)
            }
            Err(Stop::End(offset)) => Answer::Stop(Stop::End(start + offset)),
            Err(Stop::Refusal(name, span, length, offset)) => {
                Answer::Stop(Stop::Refusal(name, start + span, length, start + offset))
            }
        }
    }

    /// The fewest bytes of the part that settle the answer; none where not even all do. What is settled stays so with more bytes: so the
    /// number is doubled until it is enough, then found by halving.
    fn settling(&self, part: &[u8]) -> Option<usize> {
        let settle = |bytes: usize| {
            let known = bytes == 0 && self.waiting;
            !known && settled(self.source, &[&self.held, &part[..bytes]].concat())
        };
        let (mut least, mut enough) = (0, 0);
        while !settle(enough) {
            if enough == part.len() {
                return None;
            }
            (least, enough) = (enough + 1, part.len().min(2 * enough + 15));
        }
        while least < enough {
            let half = (least + enough) / 2;
            if settle(half) {
                enough = half;
            } else {
                least = half + 1;
            }
        }
        Some(enough)
    }
}

/// A token's kind and length, or how the stream stops.
type First = Result<(TokenType, usize), Stop>;

const OVER: First = Err(Stop::Refusal("LexemeTooLong", 0, 0, 0));

/// What a text gives first: Next's answer, "except that a longest lexeme over 2,048 bytes, legal or malformed, is refused at its start".
fn first(source: Source, text: &[u8]) -> First {
    if text.len() > LONGEST && lexeme(source, text) > LONGEST {
        return OVER;
    }
    next(source, text, 0)
}

/// How long a text's first lexeme is, which a refusal's span does not tell: by the second statement.
fn lexeme(source: Source, text: &[u8]) -> usize {
    second::next(source.profile(), text).length
}

/// What may follow. The classes know apart: blanks, of which 0A ends a comment; D; H, of which `e` begins an exponent; `x`, other S and
/// those above 7F; `_`; `$`; each quote; each byte inside an operator, a comment, a number or a parameter; and the others, which only begin
/// something. Here is one of each, those first with which most lexemes grow.
const ALPHABET: &[u8] = b"a1'\"`])=>*/|&<:-\n .e_$(xg\x80+[@?#!;\\";

/// "Bytes to come" cannot "alter the next answer". Request 8: a text that agrees with another "through the lexeme and two bytes more gives
/// the same token", and the same is true of a refusal. So no more is tried than two bytes behind the lexeme, less those that lie there.
fn is_settled(source: Source, text: &[u8]) -> bool {
    let Some(&last) = text.last() else { return false };
    let given = first(source, text);
    if given == OVER {
        return true;
    }
    let mut longer = text.to_vec();
    let mut alters = |more: &[u8]| {
        longer.truncate(text.len());
        longer.extend(more);
        first(source, &longer) != given
    };
    // Most lexemes grow with their last byte again.
    if alters(&[last]) {
        return false;
    }
    // Two bytes count before a colon alone (`docs/AHEAD.md`), and longer texts are tried with no other.
    let fronts = if text.len() > SHORT { b":" } else { ALPHABET };
    let behind = text.len() - lexeme(source, text);
    (behind > 1 || !ALPHABET.iter().any(|&byte| alters(&[byte])))
        && (behind > 0 || !pairs(fronts).any(|pair| alters(&pair)))
}

fn pairs(fronts: &[u8]) -> impl Iterator<Item = [u8; 2]> + '_ {
    fronts.iter().flat_map(|&one| ALPHABET.iter().map(move |&other| [one, other]))
}

/// Texts up to this length come again and again, and are tried once.
const SHORT: usize = 4;

fn settled(source: Source, text: &[u8]) -> bool {
    thread_local! {
        static KNOWN: RefCell<HashMap<(Source, Vec<u8>), bool>> = RefCell::default();
    }
    if text.len() > SHORT {
        return is_settled(source, text);
    }
    KNOWN.with_borrow_mut(|known| *known.entry((source, text.to_vec())).or_insert_with(|| is_settled(source, text)))
}
