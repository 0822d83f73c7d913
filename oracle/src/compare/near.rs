//! Texts rich in what the profile `sqlite` reads otherwise: brackets, `:`, `&&`, `@>`, and `_` behind `e` and its sign.

use super::cuts::CUT;
use super::families::{Family, Plan};
use super::lists;
use super::random::Random;
use super::walks::NEXT;
use super::{lexemes, makers};

pub const ALPHABETS: &[(&str, &[u8])] =
    &[("brackets", b"[]a'"), ("signs", b":$@a2>("), ("ampersands", b"&@>|"), ("exponents", b"1e_+.a")];
/// What such lexemes begin with, go on with and end at.
const BYTES: &[u8] = b"[]:&@eE_$.0123>()+-'a ;";
const GOOD: &[&[u8]] = &[
    b"[a]", b"[]", b"[a b]", b"[[]", b"[']", b"[;]", b"[--]", b"]", b":2", b":$", b":a", b":2a", b":::a", b":2::b",
    b":a(b)", b":2(;)", b"&", b"&&", b"&&&", b"@2", b"@a", b"$a(>)", b"1e5", b"1.e-5", b".5E+5_0", b"1e5_0", b"0xe_1",
    b";", b" ", b"e_5", b"->>", b">", b"||",
];
const BAD: &[&[u8]] = &[
    b"[a", b"[", b":", b"::a", b":::", b":>", b":a(", b":a( )", b"@", b"@>", b"@>a", b"1e_5", b"1e_", b"1e+_5",
    b".5e_1", b"1.e-_1", b"1e__5", b"1e_1e", b"1e5_", b"1e5_a", b"1e", b"1e+", b"1_e5",
];

pub fn families(plan: Plan) -> Vec<Family> {
    let (share, seed) = (plan.count / 8, plan.seed);
    let every =
        |name: &str, alphabet| Family::every(&format!("next: {name}"), NEXT, alphabet, plan.count / 5, seed, false);
    let mut families = vec![
        Family::new("next: near bytes", NEXT, share, |_, r, text| bytes(r, text)),
        Family::new("next: near lexemes", NEXT, share, |_, r, text| several(r, text)),
        Family::new("list: near lexemes", lists::small, share / 2, |_, r, text| several(r, text))
            .in_pieces_of(lists::PIECE),
        lists::every("list: near", b"[];:&a", share, seed),
        Family::new("cut: near lexemes", CUT, share / 2, |_, r, text| several(r, text)),
        Family::every("cut: near", CUT, b";[]a:1", share, seed, true),
    ];
    families.extend(ALPHABETS.iter().map(|(name, alphabet)| every(name, alphabet)));
    families
}

fn bytes(r: &mut Random, text: &mut Vec<u8>) -> usize {
    (0..=r.below(12)).for_each(|_| text.push(r.byte_of(BYTES)));
    r.below(text.len() + 2)
}

/// A refusal ends the walk, so bad ones are seldom.
pub fn several(r: &mut Random, text: &mut Vec<u8>) -> usize {
    for _ in 0..=r.below(8) {
        match r.below(16) {
            0 => text.extend(r.pick(BAD)),
            1 => text.push(r.byte_of(BYTES)),
            2..=4 => lexemes::any(r, text),
            _ => text.extend(r.pick(GOOD)),
        }
    }
    if r.once_in(2) {
        return 0;
    }
    makers::offset(r, text.len())
}
