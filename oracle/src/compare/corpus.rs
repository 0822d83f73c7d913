//! Real SQL: the files of a folder, whole and in pieces.

use super::random::Random;
use crate::records::LONGEST_RECORD;
use std::fs;
use std::io;
use std::path::Path;

#[derive(Default)]
pub struct Corpus(Vec<Vec<u8>>);

impl Corpus {
    /// Every file below the folder, in the order of the names, in parts that a record may hold.
    pub fn read(folder: &Path) -> io::Result<Self> {
        let mut corpus = Corpus::default();
        let mut waiting = vec![folder.to_path_buf()];
        while let Some(path) = waiting.pop() {
            if path.is_dir() {
                let mut inside = fs::read_dir(path)?.map(|entry| Ok(entry?.path())).collect::<io::Result<Vec<_>>>()?;
                inside.sort();
                waiting.extend(inside.into_iter().rev());
            } else {
                corpus.0.extend(fs::read(path)?.chunks(LONGEST_RECORD).map(<[u8]>::to_vec));
            }
        }
        Ok(corpus)
    }

    pub fn len(&self) -> usize {
        self.0.len()
    }

    pub fn whole(&self, index: usize) -> &[u8] {
        &self.0[index]
    }

    /// Some bytes from anywhere.
    pub fn part(&self, r: &mut Random, most: usize) -> &[u8] {
        let part = &self.0[r.below(self.0.len())];
        let from = r.below(part.len());
        let length = (1 + r.below(most)).min(part.len() - from);
        &part[from..from + length]
    }
}
