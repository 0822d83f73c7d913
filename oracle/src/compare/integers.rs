//! Integers about as large as are read: the limits themselves, and others near powers of two and of ten; with zeros before them, and `_`
//! inside.

use super::lexemes;
use super::random::Random;

const DECIMAL: &[&str] = &[
    "0",
    "1",
    "9",
    "10",
    "99999999999999999",
    "999999999999999999",
    "1000000000000000000",
    "9223372036854775799",
    "9223372036854775800",
    "9223372036854775806",
    "9223372036854775807",
    "9223372036854775808",
    "9223372036854775809",
    "9223372036854775810",
    "9223372036854775900",
    "9300000000000000000",
    "9999999999999999999",
    "10000000000000000000",
    "18446744073709551615",
    "18446744073709551616",
    "18446744073709551617",
    "27670116110564327423",
    "92233720368547758070",
    "92233720368547758080",
    "99999999999999999999",
    "170141183460469231731687303715884105728",
    "340282366920938463463374607431768211456",
];
const HEXADECIMAL: &[&str] = &[
    "0",
    "1",
    "F",
    "FFFFFFFF",
    "100000000",
    "FFFFFFFFFFFFFFF",
    "7FFFFFFFFFFFFFFF",
    "8000000000000000",
    "8000000000000001",
    "FFFFFFFFFFFFFFFE",
    "FFFFFFFFFFFFFFFF",
    "10000000000000000",
    "10000000000000001",
    "17FFFFFFFFFFFFFFF",
    "1FFFFFFFFFFFFFFFF",
    "FFFFFFFFFFFFFFFFF",
    "100000000000000000",
    "100000000000000000000000000000000",
];
const ZEROS: &[usize] = &[0, 1, 2, 16, 17, 18, 19, 20, 40];
/// Ways to put `_` between digits.
const WAYS: usize = 6;

const NUMBERS: usize = DECIMAL.len() + HEXADECIMAL.len();
/// Every number with every count of zeros, in every way.
pub const LIMITS: u64 = (NUMBERS * ZEROS.len() * WAYS) as u64;

/// The limit with this number; with a greater one the same again, where something is random.
pub fn limit(index: u64, r: &mut Random, text: &mut Vec<u8>) {
    let (number, turn) = (index as usize % NUMBERS, index as usize / NUMBERS);
    let (zeros, way) = (ZEROS[turn % ZEROS.len()], turn / ZEROS.len() % WAYS);
    match number.checked_sub(DECIMAL.len()) {
        None => spell(r, text, b"", zeros, DECIMAL[number], way),
        Some(number) => spell(r, text, b"0x", zeros, HEXADECIMAL[number], way),
    }
}

pub fn any(r: &mut Random, text: &mut Vec<u8>) {
    let (zeros, way, number) = (r.size(20), r.below(WAYS), number(r));
    if r.once_in(2) {
        return spell(r, text, b"", zeros, &number.to_string(), way);
    }
    spell(r, text, b"0x", zeros, &format!("{number:x}"), way);
}

/// An integer to be written, positive or negative.
pub fn value(r: &mut Random) -> i64 {
    let value = number(r) as i64;
    if r.once_in(2) {
        return value.wrapping_neg();
    }
    value
}

/// Up to about 70 bits.
fn number(r: &mut Random) -> u128 {
    let power = if r.once_in(2) { 1 << r.below(70) } else { 10_u128.pow(r.below(22) as u32) };
    let any = r.below(usize::MAX) as u128;
    match r.below(4) {
        0 => any >> r.below(64),
        1 => any ^ power,
        _ => (power + r.below(5) as u128).saturating_sub(2),
    }
}

/// The letters, that of `0x` too, are large or small.
fn spell(r: &mut Random, text: &mut Vec<u8>, front: &[u8], zeros: usize, digits: &str, way: usize) {
    let (from, digits) = (text.len(), "0".repeat(zeros) + digits);
    text.extend(front);
    for (place, digit) in digits.bytes().enumerate() {
        let parted = match way {
            0 => false,
            1 => true,
            2 => place == 1,
            3 => place + 1 == digits.len(),
            4 => (digits.len() - place) % 3 == 0,
            _ => r.once_in(3),
        };
        if parted && place > 0 {
            text.push(b'_');
        }
        text.push(digit);
    }
    lexemes::spell(r, &mut text[from..]);
}
