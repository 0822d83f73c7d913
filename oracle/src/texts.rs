//! What the fixed list asks: one family of texts after the other, each made by a short rule.

mod bytes;
mod document;
mod numbers;
mod offsets;
mod operators;
mod parameters;
mod quoted;
mod words;

use std::collections::HashSet;
pub use words::keywords;

#[derive(Clone, PartialEq, Eq, Hash)]
pub enum Question {
    /// Next, walked over this text from this offset.
    Next(Vec<u8>, usize),
    /// The keyword lookup of these bytes.
    Word(Vec<u8>),
}

/// Questions in the order in which they were first asked, none twice.
#[derive(Default)]
struct Texts {
    asked: HashSet<Question>,
    questions: Vec<Question>,
}

impl Texts {
    fn ask(&mut self, question: Question) {
        if self.asked.insert(question.clone()) {
            self.questions.push(question);
        }
    }

    fn next(&mut self, text: impl AsRef<[u8]>) {
        self.next_at(text, 0);
    }

    fn next_at(&mut self, text: impl AsRef<[u8]>, offset: usize) {
        self.ask(Question::Next(text.as_ref().to_vec(), offset));
    }

    /// Asks for each text, with nothing before or behind it.
    fn each<T: AsRef<[u8]>>(&mut self, texts: &[T]) {
        texts.iter().for_each(|text| self.next(text));
    }

    /// Asks for every text that takes one part from each row, in order.
    fn rows(&mut self, rows: &[&[&[u8]]]) {
        self.each(&product(rows));
    }

    fn word(&mut self, word: impl AsRef<[u8]>) {
        self.ask(Question::Word(word.as_ref().to_vec()));
    }
}

pub fn all() -> Vec<Question> {
    let mut texts = Texts::default();
    document::ask(&mut texts);
    bytes::ask(&mut texts);
    operators::ask(&mut texts);
    quoted::ask(&mut texts);
    numbers::ask(&mut texts);
    parameters::ask(&mut texts);
    words::ask(&mut texts);
    offsets::ask(&mut texts);
    texts.questions
}

/// Every text that takes one part from each row, in order.
fn product(rows: &[&[&[u8]]]) -> Vec<Vec<u8>> {
    rows.iter().fold(vec![Vec::new()], |fronts, row| {
        fronts.iter().flat_map(|front| row.iter().map(move |part| [front, *part].concat())).collect()
    })
}

/// Every text of at most `most` parts, shortest first.
fn up_to(most: usize, parts: &[&[u8]]) -> Vec<Vec<u8>> {
    (0..=most).flat_map(|n| product(&vec![parts; n])).collect()
}
