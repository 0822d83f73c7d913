//! Words: the 151 of the list and their neighbours, as lookups and as texts.

use super::Texts;

const PUBLISHED: &str = include_str!("../../turso_parser/src/lexer.rs");

pub fn ask(texts: &mut Texts) {
    for (index, word) in keywords().into_iter().enumerate() {
        for case in cases(&word).into_iter().chain(one_off(&word, index)) {
            texts.word(&case);
            texts.next(&case);
        }
    }
    lookups(texts);
    runs(texts);
}

/// The arms of the published lookup, read from its own text.
pub fn keywords() -> Vec<Vec<u8>> {
    let arm = |line: &str| Some(line.trim().strip_prefix("b\"")?.split_once("\" =>")?.0.into());
    let words: Vec<_> = PUBLISHED.lines().filter_map(arm).collect();
    assert_eq!(words.len(), 151);
    words
}

/// Capitals, small letters and the two by turns: ASCII letters are folded.
fn cases(word: &[u8]) -> [Vec<u8>; 3] {
    let mut mixed = word.to_vec();
    mixed.iter_mut().skip(1).step_by(2).for_each(|b| b.make_ascii_lowercase());
    [word.to_vec(), word.to_ascii_lowercase(), mixed]
}

/// One step beside the word: lengths are compared, and bytes above 7F and `_` are not folded.
fn one_off(word: &[u8], index: usize) -> Vec<Vec<u8>> {
    let last = word.len() - 1;
    let with = |place: usize, byte: u8| {
        let mut other = word.to_vec();
        other[place] = byte;
        other
    };
    let high = index % word.len();
    let mut all = vec![
        with(last, if word[last] == b'Z' { b'A' } else { word[last] + 1 }),
        word[..last].to_vec(),
        [word, b"S"].concat(),
        [word, b"\0"].concat(),
        with(high, word[high] | 0x80),
    ];
    if let Some(place) = word.iter().position(|&b| b == b'_') {
        all.push(with(place, b'_' | 0x20)); // 7F, what `_` would be with the bit of small letters
    }
    all
}

/// Lookups of bytes that Next never gives whole: empty, over the row's 17 bytes, with no C in them.
fn lookups(texts: &mut Texts) {
    for length in 0..=20 {
        texts.word(vec![b'A'; length]);
        texts.word(vec![0; length]);
    }
    let words: &[&[u8]] = &[
        b"CURRENT_TIMESTAM", b"CURRENT_TIMESTAMP", b"CURRENT_TIMESTAMP ", b"XCURRENT_TIMESTAMP",
        b"current_timestamp\0\0", b"AS\0", b"A\0S", b"\0AS", b"as ", b" as", b"a s", b"as\n", b"\nas", b"as\r",
        b"'as'", b"\"as\"", b"`as`", b"[as]", b"as;", b"AS\x80", b"A\xd3", b"a\xf3", b"\xc1\xd3", b"IS NOT", b"ISNOT",
        b"ANY", b"EOF", b"SELECT\xc3\xa9", b"\xff",
    ];
    words.iter().for_each(|word| texts.word(word));
}

/// S C*: what begins, continues and ends a word.
fn runs(texts: &mut Texts) {
    texts.rows(&[
        &[b"_", b"\xc3\xa9", b"select"],
        &[b"", b"1", b"$", b"_", b"\xff", b".", b"'", b":", b"@", b"#", b"(", b"\x7f"],
        &[b"", b"b"],
    ]);
    texts.each(&["$select", "@from", ":where", "#as", "select select", "SELECTselect", "type TYPE Type"]);
}
