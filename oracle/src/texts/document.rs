//! The texts that document 01 itself gives.

use super::Texts;

/// Section "Texts and what they give", marked P.
const PROVED: [&str; 13] =
    ["", "1.a", "1.5a", "12_x", "1_2", "0x_1", "1e_5", "::a", ":::", "'''", "/*/", "x'1'", "5.e-1"];

/// The same section, the other texts.
const RUN: &[&[u8]] = &[b"1_2_x", b"1e+", b"0x1g", b".e5", b"$a:::b", b"$a(b c)", b"#ab", b"\x0bA ", b"a;b", b"';'"];

pub fn ask(texts: &mut Texts) {
    texts.each(&PROVED);
    texts.each(RUN);
    texts.next_at("a;b", 2);
    // The program's example, and the known differences from SQLite's pages.
    texts.next("SELECT 1.e-1;\n");
    texts.next(":2 [name] && @> $a::b(c) @a::b(c) :a::b(c)");
}
