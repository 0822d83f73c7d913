//! Texts rich in what tells a trigger's statement from others, and its last semicolon from those inside.

use super::cuts::CUT;
use super::families::Family;
use super::lexemes;
use super::random::Random;

/// Every sequence of these is tried, up to a length; each is named by its place.
const WORDS: [&str; 9] = ["explain", "query", "plan", "create", "temp", "trigger", "end", ";", "a"];
const PLACES: &[u8] = &[0, 1, 2, 3, 4, 5, 6, 7, 8];
/// Heads, and what is nearly one.
const HEADS: &[&str] = &[
    "create trigger",
    "create temp trigger",
    "create temporary trigger",
    "explain create trigger",
    "explain create temp trigger",
    "explain query plan create trigger",
    "explain query plan create temporary trigger",
];
const NO_HEADS: &[&str] = &[
    "create",
    "trigger",
    "temp trigger",
    "create temp",
    "create temp temp trigger",
    "create temp temporary trigger",
    "create a trigger",
    "create temp a trigger",
    "create table trigger",
    "create explain trigger",
    "create create trigger",
    "explain",
    "explain explain create trigger",
    "explain query create trigger",
    "explain plan create trigger",
    "explain plan query create trigger",
    "explain query query plan create trigger",
    "explain query plan plan create trigger",
    "explain a create trigger",
    "explain temp create trigger",
    "query plan create trigger",
    "a create trigger",
    "end create trigger",
    "\"create\" trigger",
    "create \"trigger\"",
    "create 'temp' trigger",
    "'explain' create trigger",
    "explain query plan",
];
/// What stands in a body, some of it again and again.
const BODY: &[&str] = &[
    "; end ;", "; end ;", ";", ";", ";", "end", "end", "end ;", "; end", "a", "1", "begin", "select",
    "case when 1 then 2 end", "create", "trigger", "explain", "temp", "'end'", "\"end\"", "`;`", "'; end ;'", "(",
    "x'0f'", "?1",
];
const PARTS: &[&str] = &[" ", " ", " ", "\n", "\t ", "/**/", "/*;*/", "/* end */", " --;\n", "--\n", "--end\n"];

/// Every sequence of the words, shortest first, as far as `most` of them reach, or as many longer ones.
pub fn words<'a>(name: &str, most: u64, seed: u64) -> Family<'a> {
    let places = Family::every(name, CUT, PLACES, most, seed, false);
    let make = places.make;
    let spell = move |index, r: &mut Random, text: &mut Vec<u8>| {
        let mut sequence = Vec::new();
        let offset = make(index, r, &mut sequence);
        sequence.into_iter().for_each(|place| text.extend(WORDS[usize::from(place)].bytes().chain([b' '])));
        offset
    };
    Family { make: Box::new(spell), ..places }
}

/// Some statements, from the start of one; with something that is refused now and then.
pub fn damaged(r: &mut Random, text: &mut Vec<u8>) -> usize {
    let offset = several(r, text);
    if r.once_in(8) {
        let place = r.below(text.len() + 1);
        text.splice(place..place, *b" ! ");
    }
    offset
}

pub fn several(r: &mut Random, text: &mut Vec<u8>) -> usize {
    let mut starts = vec![0];
    for _ in 0..=r.below(3) {
        let heads = if r.once_in(3) { NO_HEADS } else { HEADS };
        write(r, text, heads);
        (0..r.below(8)).for_each(|_| write(r, text, BODY));
        starts.push(text.len());
    }
    starts[r.below(starts.len() - 1)]
}

/// One of these, in any letters, with any blanks and comments behind each word.
fn write(r: &mut Random, text: &mut Vec<u8>, row: &[&str]) {
    for word in r.pick(row).split(' ') {
        let start = text.len();
        text.extend(word.bytes());
        lexemes::spell(r, &mut text[start..]);
        text.extend(r.pick(PARTS).bytes());
    }
}
