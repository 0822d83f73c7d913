//! Bytes and integers to be written as literals. The record's offset is the buffer's length: about that of one of the four results.

use super::alphabets::ALL_BYTES;
use super::families::{Family, Plan};
use super::random::Random;
use super::{integers, makers};
use crate::literals::{write_blob, write_integer, write_name, write_string};
use crate::modes::buffers::{integer, LONGEST_WRITTEN};
use crate::modes::Mode;
use crate::records::LONGEST_RECORD;

const WRITE: fn(u64) -> Mode = |_| Mode::Write;

pub fn families(plan: Plan) -> Vec<Family> {
    let share = plan.count / 256;
    vec![
        family("quotes", 3 * share, |r, text| text.extend(makers::value(r))),
        family("bytes", share, |r, text| (0..r.below(24)).for_each(|_| text.push(r.byte()))),
        Family::new("write: integers", WRITE, 3 * share, |_, r, text| integers(r, text)),
        every("write: small", b"'\"a", 3 * share, plan.seed),
        every("write: each byte", ALL_BYTES, share, plan.seed),
        longest(24 + plan.count / 1_000_000),
    ]
}

fn family<'a>(name: &str, count: u64, make: impl Fn(&mut Random, &mut Vec<u8>) + Sync + 'a) -> Family<'a> {
    Family::new(format!("write: {name}"), WRITE, count, move |_, r, text| {
        make(r, text);
        room(r, text)
    })
}

fn room(r: &mut Random, text: &[u8]) -> usize {
    let literal = match r.below(4) {
        0 => write_string(text),
        1 => write_name(text),
        2 => write_blob(text),
        _ => write_integer(integer(text)),
    };
    makers::room(r, literal.len())
}

/// Eight bytes, now and then fewer or more, with a buffer for the integer.
fn integers(r: &mut Random, text: &mut Vec<u8>) -> usize {
    text.extend(integers::value(r).to_le_bytes());
    match r.below(16) {
        0 => text.truncate(r.below(8)),
        1 => (0..=r.below(4)).for_each(|_| text.push(r.byte())),
        _ => {}
    }
    makers::room(r, write_integer(integer(text)).len())
}

/// Every short text with every buffer, up to one byte more than the longest needs as a blob.
fn every<'a>(name: &str, alphabet: &'a [u8], most: u64, seed: u64) -> Family<'a> {
    Family::each(name, WRITE, alphabet, most, seed, |longest| 2 * longest + 5, |room, _, _, _| room as usize)
}

/// About as long as a record holds: most quotes of one sort, or any bytes.
fn longest<'a>(count: u64) -> Family<'a> {
    let make = |index, r: &mut Random, text: &mut Vec<u8>| {
        let length = LONGEST_RECORD - r.below(3);
        match index % 4 {
            0 => text.resize(length, b'\''),
            1 => text.resize(length, b'"'),
            2 => (0..length).for_each(|_| text.push(r.byte_of(b"'\"a"))),
            _ => (0..length).for_each(|_| text.push(r.byte())),
        }
        if r.once_in(8) {
            return LONGEST_WRITTEN;
        }
        room(r, text)
    };
    Family::new("write: longest", WRITE, count, make).in_pieces_of(4)
}
