//! Small alphabets, of which every text is tried up to a length.

pub const ALPHABETS: &[(&str, &[u8])] = &[
    ("numbers", b"01.eE+_a"),
    ("hexadecimal", b"0xX1f_g."),
    ("quotes", b"'\"`a "),
    ("blobs", b"xX'0fg"),
    ("parameters", b"$@:a() 1"),
    ("colons", b":a>"),
    ("comments", b"/*-\na>"),
    ("operators", b"<>=!|&-@"),
    ("blanks", b" \t\n\x0b\x0c\ra"),
    ("names", b"aA_$1\x80#?"),
    ("strays", b"\x00\\ a;'"),
    ("mixed", b"1.e_':a$x(/* -"),
];

/// Every byte there is.
pub const ALL_BYTES: &[u8] = &{
    let mut bytes = [0; 256];
    let mut byte = 0;
    while byte < 256 {
        bytes[byte] = byte as u8;
        byte += 1;
    }
    bytes
};

/// The text with this number, shortest first.
pub fn text(alphabet: &[u8], number: u64, text: &mut Vec<u8>) {
    let k = alphabet.len() as u64;
    let (mut rest, mut of_length, mut length) = (number, 1, 0);
    while rest >= of_length {
        rest -= of_length;
        of_length *= k;
        length += 1;
    }
    for _ in 0..length {
        text.push(alphabet[(rest % k) as usize]);
        rest /= k;
    }
}
