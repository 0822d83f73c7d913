//! Texts for the cut into statements: rich in `;`, and in strings, comments and names that hide one.

use super::damage::{damage, SPECIAL};
use super::families::{Family, Plan};
use super::random::Random;
use super::{lexemes, makers, statements, triggers};
use crate::modes::Mode;

pub const CUT: fn(u64) -> Mode = |_| Mode::Cut;

const PLAIN: &[&[u8]] =
    &[b"a", b"1", b"select ", b"''", b"x'0f'", b"?1", b",", b"=", b"!=", b"$a", b"#a", b"[", b"1.5"];
/// A `;` inside a lexeme.
const HIDING: &[&[u8]] = &[
    b"';'", b"\";\"", b"`;`", b"'a'';'", b"/*;*/", b"/*;", b"--;\n", b"--;", b"$a(;)", b"@a(;b)", b"'\n;'", b"--\r;\n",
];
/// Refused, with or without the `;`.
const BAD: &[&[u8]] =
    &[b"';", b"\"a;", b"1a", b"1.5e;", b"0x;", b"!;", b"\x00;", b"\\;a", b"x';'", b"x'1'", b"::;", b"$(;)", b"$a(; )"];

pub fn families(plan: Plan) -> Vec<Family> {
    let share = plan.count / 16;
    let every = |name: &str, alphabet| Family::every(name, CUT, alphabet, 2 * share, plan.seed, true);
    vec![
        family("semicolons", 4 * share, semicolons),
        family("blanks", share, blanks),
        family("scripts", 2 * share, script),
        family("damaged scripts", 2 * share, |r, text| {
            let offset = script(r, text);
            damage(r, text);
            offset
        }),
        family("lexemes", 2 * share, |r, text| {
            for _ in 0..=r.below(3) {
                makers::several_lexemes(r, text);
                text.push(b';');
            }
            text.truncate(text.len() - r.below(2));
            makers::offset(r, text.len())
        }),
        family("special bytes", share, |r, text| {
            (0..=r.below(16)).for_each(|_| text.push(if r.once_in(6) { b';' } else { r.byte_of(SPECIAL) }));
            r.below(text.len() + 2)
        }),
        family("triggers", 5 * share, triggers::damaged),
        triggers::words("cut: trigger words", 6 * share, plan.seed),
        every("cut: statements", b"; a'1\n-"),
        every("cut: comments", b";/*-\na"),
        Family::new("cut: longest", CUT, 24 + plan.count / 200_000, makers::longest),
    ]
}

/// Parts of the corpus.
pub fn real(plan: Plan) -> Family {
    family("corpus parts", plan.count / 16, |r, text| {
        text.extend(plan.corpus.part(r, 400));
        makers::offset(r, text.len())
    })
}

fn family<'a>(name: &str, count: u64, make: impl Fn(&mut Random, &mut Vec<u8>) -> usize + Sync + 'a) -> Family<'a> {
    Family::new(format!("cut: {name}"), CUT, count, move |_, r, text| make(r, text))
}

fn semicolons(r: &mut Random, text: &mut Vec<u8>) -> usize {
    for _ in 0..=r.below(10) {
        match r.below(16) {
            0..=2 => text.push(b';'),
            3..=5 => lexemes::blanks(r, text),
            6 => lexemes::comment(r, text),
            7..=10 => text.extend(r.pick(PLAIN)),
            11..=13 => text.extend(r.pick(HIDING)),
            14 => text.extend(r.pick(BAD)),
            _ => lexemes::any(r, text),
        }
    }
    if r.once_in(2) {
        return 0;
    }
    makers::offset(r, text.len())
}

/// Blanks and comments, now and then with a `;` or another lexeme.
fn blanks(r: &mut Random, text: &mut Vec<u8>) -> usize {
    for _ in 0..=r.below(6) {
        match r.below(16) {
            0 | 1 => text.push(b';'),
            2 => lexemes::any(r, text),
            3..=8 => lexemes::blanks(r, text),
            _ => lexemes::comment(r, text),
        }
    }
    r.below(text.len() + 1)
}

/// A few statements, from the start of one or from anywhere.
fn script(r: &mut Random, text: &mut Vec<u8>) -> usize {
    let mut starts = vec![0];
    for _ in 0..=r.below(3) {
        statements::any(r, text);
        starts.push(text.len());
    }
    if r.once_in(2) {
        return starts[r.below(starts.len())];
    }
    makers::offset(r, text.len())
}
