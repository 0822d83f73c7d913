//! Lists to be checked, with what `crate::check` says of them: of each text its own and others, most of them damaged. They are written one
//! behind the other, for a program that checks them itself.

mod damages;

use super::damage::{damage, SPECIAL};
use super::families::Family;
use super::random::Random;
use super::walks::NEXT;
use super::{makers, near, newlines, statements, Wanted};
use crate::check::{Checked, Full};
use crate::list::{Record, TOO_LONG};
use crate::numbers;
use crate::second::Profile;
use crate::walk::Source;
use std::io::{self, Write};

/// So many lists of each text, its own the first.
const LISTS: u64 = 6;
/// Small ones: the list of each short text is held to each.
const ALPHABETS: &[(&str, &[u8])] =
    &[("quotes", b"a;\n'"), ("brackets", b"[]a\n"), ("comments", b"-/*\n"), ("numbers", b"1_e."), ("signs", b":2&@>")];
const PROFILES: [Profile; 2] = [Profile::Turso, Profile::Sqlite];

// The statuses of `include/sqllex.h`.
const TOO_LONG_STATUS: u32 = 9;
const LIST_DIFFERS: u32 = 16;
const UNKNOWN_PROFILE: u32 = 99;
const ACCEPTED: u32 = 106;

/// COUNT SEED FOLDER: about COUNT lists and a tenth more. Of each the profile, the status, the index, the text's length and the number of
/// records are written, 4 bytes each, lowest first; then the text, and five such numbers for each record.
pub fn checks(out: &mut impl Write, args: &[String]) -> io::Result<bool> {
    let (wanted, _) = Wanted::read(args)?;
    let (seed, texts) = (wanted.seed, wanted.count / LISTS);
    let mut place = 0;
    for family in families(texts).iter().chain(&real(&wanted)) {
        for index in 0..family.count {
            let (mut r, mut text) = (Random::new(seed, place, index), Vec::new());
            (family.make)(index, &mut r, &mut text);
            lists(out, &mut r, &text)?;
        }
        place += 1;
    }
    for (name, alphabet) in ALPHABETS {
        let family = Family::every(name, NEXT, alphabet, of_pairs(wanted.count), seed, false);
        every_pair(out, &family.texts(0, place, seed))?;
        place += 1;
    }
    Ok(true)
}

/// As many texts of an alphabet that their pairs, under both profiles, are no more than a fiftieth of COUNT.
fn of_pairs(count: u64) -> u64 {
    (count as f64 / 100.0).sqrt() as u64
}

/// Texts by the rules for the other calls, rich in what lists tell apart: lexemes of all kinds, lines, what the profiles read otherwise.
fn families<'a>(texts: u64) -> Vec<Family<'a>> {
    let share = texts / 16;
    let several = |_, r: &mut Random, text: &mut Vec<u8>| {
        makers::several_lexemes(r, text);
        0
    };
    vec![
        Family::new("lexemes", NEXT, 4 * share, several),
        Family::new("newlines", NEXT, 4 * share, |_, r, text| newlines::any(r, text)),
        Family::new("near lexemes", NEXT, 3 * share, |_, r, text| near::several(r, text)),
        Family::new("special bytes", NEXT, 2 * share, |_, r, text| {
            (0..r.below(16)).for_each(|_| text.push(r.byte_of(SPECIAL)));
            0
        }),
        Family::new("statements", NEXT, share, |_, r, text| {
            statements::any(r, text);
            0
        }),
        Family::new("damaged", NEXT, 2 * share, |_, r, text| {
            makers::good(r, text);
            damage(r, text);
            0
        }),
        Family::new("long", NEXT, 8 + texts / 10_000, |_, r, text| {
            makers::long(r, text);
            0
        }),
        Family::new("longest", NEXT, 9 + texts / 40_000, makers::longest),
    ]
}

/// Parts of real SQL.
fn real(wanted: &Wanted) -> Vec<Family<'_>> {
    let count = if wanted.corpus.len() > 0 { wanted.count / LISTS / 8 } else { 0 };
    vec![Family::new("corpus parts", NEXT, count, |_, r, text| {
        text.extend(wanted.corpus.part(r, 200));
        0
    })]
}

/// A text under one of the profiles: its own list, and others.
fn lists(out: &mut impl Write, r: &mut Random, text: &[u8]) -> io::Result<()> {
    let profile = PROFILES[r.below(2)];
    let full = Full::of(Source::of(profile), text)?;
    write(out, profile, &full.check(&full.records), text, &full.records)?;
    for _ in 1..LISTS {
        let records = other(r, profile, text, &full.records)?;
        if r.once_in(200) {
            write_unknown(out, r, text, &records)?;
        }
        write(out, profile, &full.check(&records), text, &records)?;
    }
    Ok(())
}

/// What may be sent in place of a text's own list: that of the other profile, that of a text that is a little other, or its own, damaged.
fn other(r: &mut Random, profile: Profile, text: &[u8], own: &[Record]) -> io::Result<Vec<Record>> {
    let mut near = text.to_vec();
    match r.below(12) {
        0 => Ok(Full::of(Source::of(PROFILES[usize::from(profile == Profile::Turso)]), text)?.records),
        1 => {
            damage(r, &mut near);
            Ok(Full::of(Source::of(profile), &near)?.records)
        }
        2 => {
            swap_ends(r, &mut near);
            Ok(Full::of(Source::of(profile), &near)?.records)
        }
        // Of a text that is too long, the list of its front.
        3 if text.len() >= TOO_LONG => Ok(Full::of(Source::of(profile), &text[..TOO_LONG - 1])?.records),
        _ => {
            let mut records = own.to_vec();
            (0..=r.size(2)).for_each(|_| damages::any(r, text, &mut records));
            Ok(records)
        }
    }
}

/// A line's end is a blank now, or a blank a line's end.
fn swap_ends(r: &mut Random, text: &mut [u8]) {
    let places: Vec<_> = (0..text.len()).filter(|&place| matches!(text[place], b' ' | b'\n')).collect();
    if !places.is_empty() {
        text[places[r.below(places.len())]] ^= b' ' ^ b'\n';
    }
}

/// The list of each text is held to each.
fn every_pair(out: &mut impl Write, texts: &[Vec<u8>]) -> io::Result<()> {
    for profile in PROFILES {
        let full: Vec<_> = texts.iter().map(|text| Full::of(Source::of(profile), text)).collect::<io::Result<_>>()?;
        for (text, own) in texts.iter().zip(&full) {
            for Full { records, .. } in &full {
                write(out, profile, &own.check(records), text, records)?;
            }
        }
    }
    Ok(())
}

fn write(out: &mut impl Write, profile: Profile, checked: &Checked, text: &[u8], records: &[Record]) -> io::Result<()> {
    let (status, index) = match *checked {
        Checked::Accepted => (ACCEPTED, 0),
        Checked::TooLong => (TOO_LONG_STATUS, 0),
        Checked::ListDiffers(index) => (LIST_DIFFERS, index as u32),
    };
    let number = PROFILES.iter().position(|&other| other == profile).expect("one of the two");
    write_numbers(out, [number as u32, status, index], text, records)
}

/// Under a number that is no profile's.
fn write_unknown(out: &mut impl Write, r: &mut Random, text: &[u8], records: &[Record]) -> io::Result<()> {
    let number = [2, 3, 99, 1 << 8, 1 << 16, 1 << 31, u32::MAX, u32::MAX - 1][r.below(8)];
    write_numbers(out, [number, UNKNOWN_PROFILE, 0], text, records)
}

fn write_numbers(out: &mut impl Write, first: [u32; 3], text: &[u8], records: &[Record]) -> io::Result<()> {
    let mut bytes = Vec::new();
    numbers::push(&mut bytes, &first);
    numbers::push(&mut bytes, &[text.len() as u32, records.len() as u32]);
    bytes.extend(text);
    records.iter().for_each(|record| numbers::push(&mut bytes, record));
    out.write_all(&bytes)
}
