//! Good texts made bad: a few bytes changed, dropped, doubled or swapped, or the text cut.

use super::random::Random;

/// The bytes at which the lexer decides something.
pub const SPECIAL: &[u8] = b" \t\n\x0b\x0c\r!\"#$%&'()*+,-./0019:;<=>?@AEFXxaefz[]_`|~\x00\x7f\x80\xc3\xff\\^{}";

pub fn damage(r: &mut Random, text: &mut Vec<u8>) {
    for _ in 0..=r.size(3) {
        if text.is_empty() {
            return;
        }
        let place = r.below(text.len());
        match r.below(7) {
            0 => text[place] = r.byte(),
            1 => text[place] = r.byte_of(SPECIAL),
            2 => drop(text.remove(place)),
            3 => text.insert(place, text[place]),
            4 => text.insert(place, r.byte_of(SPECIAL)),
            5 => text.swap(place, place.saturating_sub(1)),
            _ => text.truncate(place),
        }
    }
}
