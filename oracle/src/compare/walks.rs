//! Texts for Next: by rules of many sorts, then all texts over small alphabets; real SQL apart. Every other run of the program is asked
//! for the tokens' digits and underscores too.

use super::alphabets::{ALL_BYTES, ALPHABETS};
use super::damage::{damage, SPECIAL};
use super::families::{Family, Plan};
use super::random::Random;
use super::{lexemes, makers, statements};
use crate::modes::Mode;

pub const NEXT: fn(u64) -> Mode = |piece| if piece % 2 == 0 { Mode::Sums } else { Mode::Next };

pub fn families(plan: Plan) -> Vec<Family> {
    let share = plan.count / 16;
    let mut families = vec![
        random("uniform bytes", share, |r, text| (0..=r.below(24)).for_each(|_| text.push(r.byte()))),
        random("special bytes", 2 * share, |r, text| (0..=r.below(16)).for_each(|_| text.push(r.byte_of(SPECIAL)))),
        random("lexemes", 3 * share, makers::several_lexemes),
        random("keywords", share, keywords),
        random("digit runs", 4 * share, digit_runs),
        random("statements", share, statements::any),
        random("damaged", 3 * share, |r, text| {
            makers::good(r, text);
            damage(r, text);
        }),
        Family::new("next: offsets", NEXT, share, |_, r, text| {
            makers::good(r, text);
            makers::offset(r, text.len())
        }),
        random("long", plan.count / 1000, makers::long),
        Family::new("next: longest", NEXT, 24 + plan.count / 200_000, makers::longest),
    ];
    let every = |name: &str, alphabet| Family::every(&format!("next: {name}"), NEXT, alphabet, share, plan.seed, false);
    families.extend(ALPHABETS.iter().map(|(name, alphabet)| every(name, alphabet)));
    families.push(every("bytes", ALL_BYTES));
    families
}

/// Walked from the start.
fn random<'a>(name: &str, count: u64, make: impl Fn(&mut Random, &mut Vec<u8>) + Sync + 'a) -> Family<'a> {
    Family::new(format!("next: {name}"), NEXT, count, move |_, r, text| {
        make(r, text);
        0
    })
}

/// Up to three, since there are not many different words.
fn keywords(r: &mut Random, text: &mut Vec<u8>) {
    for _ in 0..=r.below(3) {
        if !text.is_empty() {
            text.push(r.byte_of(b" \n.,;(-$"));
        }
        lexemes::keyword(r, text);
    }
}

/// Digits in groups, with all that may stand inside a decimal number, so that a run of them ends in every way.
fn digit_runs(r: &mut Random, text: &mut Vec<u8>) {
    text.push(r.byte_of(b"0123456789."));
    (0..=r.below(16)).for_each(|_| text.push(r.byte_of(b"0123456789____..eE+-")));
}

/// The corpus, parts of it, and damaged parts.
pub fn real(plan: Plan) -> [Family; 3] {
    let (corpus, share) = (plan.corpus, plan.count / 16);
    [
        Family::new("next: corpus whole", NEXT, corpus.len() as u64, |index, _, text| {
            text.extend(corpus.whole(index as usize));
            0
        }),
        random("corpus parts", share, |r, text| text.extend(corpus.part(r, 200))),
        Family::new("next: corpus damaged", NEXT, share, |_, r, text| {
            text.extend(corpus.part(r, 200));
            damage(r, text);
            makers::offset(r, text.len())
        }),
    ]
}
