//! Integers, floats and hexadecimal integers, with refusals 3 to 6.

use super::Texts;

/// What may follow a number: S bytes (letters, `e`, `x`, above 7F), `_`, and bytes that end it well.
const BEHIND: &[&[u8]] = &[b"", b"a", b"e", b"E", b"x", b"_", b"\x80", b"$", b".", b"+", b" "];

/// A number in each form.
const FORMS: [&str; 15] = [
    "12", "0", "1.", "1.5", "12.34", "1e5", "1e-6", "1.e5", "1.5e-6", "1E+56", ".5", ".56e7", "12.34e56", "0x12",
    "0XaB",
];

pub fn ask(texts: &mut Texts) {
    decimal(texts);
    underscores(texts);
    exponents(texts);
    hexadecimal(texts);
    lone_zero(texts);
}

/// TK_INTEGER and each form of TK_FLOAT, with every byte of `BEHIND` (3, 4, 5).
fn decimal(texts: &mut Texts) {
    texts.rows(&[&[b"1", b"12"], BEHIND]);
    texts.rows(&[&[b"", b"1"], &[b".", b".5"], BEHIND]);
    texts.rows(&[&[b"1", b"1.", b"1.5", b".5"], &[b"e5", b"E+5", b"e-5", b"e_5"], BEHIND]);
    texts.each(&["007", "1234567890", "9223372036854775808", "1.5.5", "1..5", "1e5.5", "1e5e5"]);
}

/// `_` single and doubled at every place of every form: inside a *Dig*, or 3.
fn underscores(texts: &mut Texts) {
    for form in FORMS {
        for place in 0..=form.len() {
            let (front, rest) = form.split_at(place);
            for mark in ["_", "__"] {
                texts.next([front, mark, rest].concat());
            }
        }
        texts.next(form);
    }
    texts.rows(&[&[b"1_2_3", b"1.2_3", b"1e2_3", b".2_3"], &[b"", b"_", b"_x", b"a", b"_4", b"__4"]]);
}

/// `e` and sign with neither D nor `_` next: 5. With `_` and no D next: 3.
fn exponents(texts: &mut Texts) {
    texts.rows(&[
        &[b"1", b"1.", b"1.5", b".5", b"1_2"],
        &[b"e", b"E+", b"e-"],
        &[b"", b"x", b" ", b"_", b"_x", b"__5", b"+", b"$", b".5", b"\xff"],
    ]);
}

/// `0x`: H+ ( `_` H+ )*, none (6), `_` out of place or an S behind (3).
fn hexadecimal(texts: &mut Texts) {
    let rest: &[&[u8]] = &[
        b"", b"1", b"aF", b"1_2", b"1_a_F", b"_", b"_1", b"1_", b"1__2", b"1_2_", b"1_g", b"1_2g", b"g", b"1g", b"x",
        b"1x", b"\x80", b"1\x80", b"1$", b"$", b".", b"1.5", b"1e5", b"1e+5", b" 1", b"1 ", b"'11'", b"1h_1",
    ];
    texts.rows(&[&[b"0x", b"0X"], rest]);
}

/// `x` belongs to a lone 0 only; elsewhere it is an S like any other.
fn lone_zero(texts: &mut Texts) {
    texts.rows(&[&[b"00", b"10", b"0_0", b"0.", b"0.0", b".0", b"0e0", b"0 "], &[b"x", b"X1", b"x_", b"e", b"ex"]]);
}
