//! The check of a list that was made elsewhere, said from request 11's sentences over List, whoever gives its tokens.

use crate::list::{self, Record, WIDTH};
use crate::walk::{Source, Stop};
use std::io;

pub enum Checked {
    Accepted,
    TooLong,
    /// By its index.
    ListDiffers(usize),
}

/// 'The full list that List would write from offset 0', with room for a record of each byte, and how List stops.
pub struct Full {
    pub records: Vec<Record>,
    stop: Stop,
}

impl Full {
    pub fn of(source: Source, text: &[u8]) -> io::Result<Self> {
        let mut numbers = vec![0; WIDTH * text.len()];
        let (stop, count) = list::list(source, &mut numbers, text, 0)?;
        let records = numbers.chunks_exact(WIDTH).take(count).map(|record| record.try_into().expect("so wide"));
        Ok(Full { records: records.collect(), stop })
    }

    /// 'The watch checks it against the text and accepts exactly when it is the full list that List would write from offset 0, blanks
    /// included, with the text free of refusals 1 to 7. Otherwise the answer is the index of the first record that differs, is surplus or
    /// is missing; where all records agree up to a refused lexeme, that index is the number of agreeing records.' 'Refusals: TooLong
    /// first, then 16 ListDiffers.'
    pub fn check(&self, records: &[Record]) -> Checked {
        // A record that is surplus, or missing, is beside none.
        let most = self.records.len().max(records.len());
        let first = (0..most).find(|&index| self.records.get(index) != records.get(index));
        match (self.stop, first) {
            (Stop::Refusal("TooLong", ..), _) => Checked::TooLong,
            (_, Some(index)) => Checked::ListDiffers(index),
            (Stop::End(_), None) => Checked::Accepted,
            (Stop::Refusal(..), None) => Checked::ListDiffers(records.len()),
        }
    }
}
