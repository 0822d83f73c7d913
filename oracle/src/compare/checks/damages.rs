//! What may be wrong with a list: a number of a record, several that fit together, records that are missing, surplus or elsewhere, and what
//! another lexer could have meant.

use super::super::random::Random;
use crate::list::{Record, WIDTH};

/// The places of a record's numbers.
const KIND: usize = 0;
const START: usize = 1;
const LENGTH: usize = 2;
const LINE: usize = 3;
const COLUMN: usize = 4;

type Records = Vec<Record>;

pub fn any(r: &mut Random, text: &[u8], records: &mut Records) {
    match r.below(32) {
        0..=11 => one(r, records, |r, record| {
            let field = r.below(WIDTH);
            record[field] = number(r, record[field], text.len());
        }),
        12..=13 => one(r, records, two_numbers),
        14 => from(r, records),
        15 => one(r, records, |r, record| record.swap(r.below(WIDTH), r.below(WIDTH))),
        16..=21 => order(r, records),
        22..=24 => surplus(r, text, records),
        25 => merge(r, records),
        26 => split(r, records),
        _ => meant(r, text, records),
    }
}

/// One of the records, or a first one where there is none.
fn one(r: &mut Random, records: &mut Records, wrong: impl FnOnce(&mut Random, &mut Record)) {
    if records.is_empty() {
        records.push([0, 0, 0, 1, 1]);
    }
    let place = r.below(records.len());
    wrong(r, &mut records[place]);
}

/// Another number in the place of this one: near it, the same in its low bits, with a sum that wraps, small, or any.
fn number(r: &mut Random, right: u32, length: usize) -> u32 {
    match r.below(13) {
        0 | 1 => right.wrapping_add(1),
        2 | 3 => right.wrapping_sub(1),
        4 => 0,
        5 => u32::MAX,
        6 => right ^ 1 << 31,
        7 => right ^ 1 << 16,
        8 => right ^ 1 << r.below(32),
        9 => right.wrapping_neg(),
        10 => right.wrapping_add(length as u32),
        11 => r.below(length + 2) as u32,
        _ => r.below(1 << 32) as u32,
    }
}

/// Two numbers of a record keep their sum, if only in 32 bits.
fn two_numbers(r: &mut Random, record: &mut Record) {
    let (field, other) = [(START, LENGTH), (LINE, COLUMN), (START, COLUMN), (KIND, LENGTH)][r.below(4)];
    let by = [1, 2, 1 << 16, 1 << 31, u32::MAX][r.below(5)];
    record[field] = record[field].wrapping_add(by);
    record[other] = record[other].wrapping_sub(by);
}

/// A number of all records from one on, as after a byte or a line too many.
fn from(r: &mut Random, records: &mut Records) {
    let (field, by) = (r.below(WIDTH), [1, u32::MAX, 1 << 16, 1 << 31][r.below(4)]);
    let place = r.below(records.len() + 1);
    records[place..].iter_mut().for_each(|record| record[field] = record[field].wrapping_add(by));
}

/// Records that are missing, there twice, or elsewhere.
fn order(r: &mut Random, records: &mut Records) {
    if records.is_empty() {
        return;
    }
    let (place, other) = (r.below(records.len()), r.below(records.len()));
    match r.below(8) {
        0 | 1 => records.truncate(place),
        2 => drop(records.remove(place)),
        3 => drop(records.drain(place.min(other)..place.max(other))),
        4 => records.insert(place, records[place]),
        5 => records.insert(place, records[other]),
        6 => records.swap(place, place.saturating_sub(1)),
        _ => records.swap(place, other),
    }
}

/// Behind the last: what could go on, what could not, and now and then several.
fn surplus(r: &mut Random, text: &[u8], records: &mut Records) {
    let last = records.last().copied().unwrap_or([0, 0, 0, 1, 1]);
    let end = last[START].wrapping_add(last[LENGTH]);
    let column = last[COLUMN].wrapping_add(last[LENGTH]);
    let record = match r.below(6) {
        0 => [0; WIDTH],
        1 => last,
        2 => [r.below(176) as u32, end, 0, last[LINE], column],
        3 => [r.below(176) as u32, end, (text.len() as u32).wrapping_sub(end), last[LINE], column],
        4 => [r.below(176) as u32, end, 1, last[LINE], column],
        _ => [(); WIDTH].map(|()| r.below(1 << 32) as u32),
    };
    (0..=r.size(2)).for_each(|_| records.push(record));
}

/// Two neighbours made one.
fn merge(r: &mut Random, records: &mut Records) {
    if records.len() > 1 {
        let place = r.below(records.len() - 1);
        let behind = records.remove(place + 1);
        records[place][LENGTH] = records[place][LENGTH].wrapping_add(behind[LENGTH]);
    }
}

/// One of several bytes made two.
fn split(r: &mut Random, records: &mut Records) {
    let long: Vec<_> = (0..records.len()).filter(|&place| records[place][LENGTH] > 1).collect();
    if long.is_empty() {
        return;
    }
    let place = long[r.below(long.len())];
    let [kind, start, length, line, column] = records[place];
    let front = 1 + r.below(length as usize - 1) as u32;
    records[place][LENGTH] = front;
    let behind = [kind, start.wrapping_add(front), length - front, line, column.wrapping_add(front)];
    records.insert(place + 1, behind);
}

/// What another could have meant by a list: without blanks, as a slice has it; places from 0; no lines; lines that end elsewhere too; columns of
/// characters; tokens without lines of their own.
fn meant(r: &mut Random, text: &[u8], records: &mut Records) {
    match r.below(6) {
        0 => records.retain(|record| record[KIND] != 0),
        1 => {
            let field = [LINE, COLUMN][r.below(2)];
            records.iter_mut().for_each(|record| record[field] = record[field].wrapping_sub(1));
        }
        2 => records.iter_mut().for_each(|record| [record[LINE], record[COLUMN]] = [1, record[START].wrapping_add(1)]),
        3 => places(text, records, |byte| matches!(byte, b'\n' | b'\r'), |_| true),
        4 => places(text, records, |byte| byte == b'\n', |byte| byte & 0xc0 != 0x80),
        _ => {
            // Only the 0A of blanks and comments.
            let mut alone = vec![b' '; text.len()];
            for &[kind, start, length, ..] in records.iter() {
                let span = (start as usize).min(text.len())..(start as usize + length as usize).min(text.len());
                if kind == 0 {
                    alone[span.clone()].copy_from_slice(&text[span]);
                }
            }
            places(&alone, records, |byte| byte == b'\n', |_| true);
        }
    }
}

/// Lines and columns, with other bytes that end a line or count in one.
fn places(text: &[u8], records: &mut Records, ends: fn(u8) -> bool, counts: fn(u8) -> bool) {
    for record in records {
        let before = &text[..(record[START] as usize).min(text.len())];
        let since = before.iter().rposition(|&byte| ends(byte)).map_or(0, |place| place + 1);
        record[LINE] = 1 + before.iter().filter(|&&byte| ends(byte)).count() as u32;
        record[COLUMN] = 1 + before[since..].iter().filter(|&&byte| counts(byte)).count() as u32;
    }
}
