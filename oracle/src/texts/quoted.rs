//! Strings, quoted names and blobs.

use super::{up_to, Texts};

pub fn ask(texts: &mut Texts) {
    quotes(texts);
    blobs(texts);
}

/// Each of the three quotes: closed, never closed (2), doubled at every place.
fn quotes(texts: &mut Texts) {
    for quote in ["'", "\"", "`"] {
        let quote = quote.as_bytes();
        for body in up_to(4, &[quote, b"a"]) {
            texts.next([quote, &body].concat());
        }
        let bodies: [&[u8]; 7] = [b"'", b"\"", b"`", b"\x00\n", b"--", b"/*;", b"\x80\xff"];
        for body in bodies {
            texts.next([quote, body].concat());
            texts.next([quote, body, quote, b" "].concat());
        }
    }
}

/// A blob: even number of H, odd (1), no quote right after the H run (2), no blob at all.
fn blobs(texts: &mut Texts) {
    const X: &[&[u8]] = &[b"x'", b"X'"];
    for body in up_to(3, &[b"a", b"'", b"g"]) {
        texts.next([b"x'", &body[..]].concat());
    }
    texts.rows(&[
        X,
        &[b"", b"0", b"0f", b"0F9", b"AaFf", b"09afAF", b"0 f", b"0\xff", b"_0", b"0''"],
        &[b"", b"'", b"'a", b"''", b"\""],
    ]);
    texts.each(&["x", "X", "x\"1\"", "x '1'", "xx'11'", "x1'11'", "0x'11'", "y'11'", "_x'11'"]);
}
