//! Parameters: `?`, and `$`, `@`, `:` with a name.

use super::bytes::BLANKS;
use super::{up_to, Texts};

const MARKS: &[&[u8]] = &[b"$", b"@", b":"];

pub fn ask(texts: &mut Texts) {
    numbered(texts);
    names(texts);
    parts(texts);
    blank_in_part(texts);
}

/// `?` D*, and what ends it.
fn numbered(texts: &mut Texts) {
    texts.rows(&[&[b"?", b"?1", b"?0099"], &[b"", b"a", b"_", b".5", b"?", b"::a", b"(a)", b"$"]]);
}

/// Runs of C and pairs with at least one C; nothing or pairs only is 1; `:` begins with S or a pair.
fn names(texts: &mut Texts) {
    for mark in MARKS {
        for name in up_to(3, &[b"a", b":", b"2"]) {
            texts.next([mark, &name[..]].concat());
        }
    }
    let names: &[&[u8]] = &[
        b"$", b"_", b"\xc3\xa9", b"$a", b"a$", b"::::", b"::::a", b"a::b", b"a::::b", b"a:::b", b"a: :b", b"::2::",
        b">", b">a", b"@a", b"'a'", b"!", b"\x0b", b";",
    ];
    texts.rows(&[MARKS, names]);
}

/// At most one `(`...`)` with no `)` and no blank, after at least one C; never closed is 1.
fn parts(texts: &mut Texts) {
    for part in up_to(3, &[b"b", b"(", b")"]) {
        texts.next([b"$a(", &part[..]].concat());
    }
    let parts: &[&[u8]] = &[
        b"(", b"(a)", b"a(", b"a(b", b"a(b)", b"::(a)", b"a::(b)", b"a:(b)", b"a(::)", b"a(')", b"a(\x0b)",
        b"a(\x00\xff)", b"a()::b", b"a(b);", b"a (b)", b"2(b)", b"$(b)",
    ];
    texts.rows(&[MARKS, parts]);
}

/// A part that meets a blank: 1, the span ends before it.
fn blank_in_part(texts: &mut Texts) {
    texts.rows(&[MARKS, &[b"a(", b"a::b("], &[b"", b"((b"], BLANKS, &[b"", b"c)"]]);
}
