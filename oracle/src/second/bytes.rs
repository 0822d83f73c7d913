//! Document 01, 'What the library offers': the byte classes, and runs of them.

pub fn is_blank(byte: u8) -> bool {
    matches!(byte, 0x09 | 0x0a | 0x0c | 0x0d | 0x20)
}

/// D.
pub fn is_digit(byte: u8) -> bool {
    byte.is_ascii_digit()
}

/// H.
pub fn is_hexdigit(byte: u8) -> bool {
    byte.is_ascii_hexdigit()
}

/// S.
pub fn is_start(byte: u8) -> bool {
    byte.is_ascii_alphabetic() || byte == b'_' || byte > 0x7f
}

/// C.
pub fn is_continue(byte: u8) -> bool {
    is_start(byte) || is_digit(byte) || byte == b'$'
}

/// An S that isn't `_`, `e`, `E`: "such an S" of the malformed numbers.
pub fn is_other_start(byte: u8) -> bool {
    is_start(byte) && !matches!(byte, b'_' | b'e' | b'E')
}

/// Whether the text goes on at this place with such a byte.
pub fn at(rest: &[u8], place: usize, is: fn(u8) -> bool) -> bool {
    rest.get(place).is_some_and(|&byte| is(byte))
}

/// How many such bytes the text begins with.
pub fn run(rest: &[u8], is: fn(u8) -> bool) -> usize {
    rest.iter().position(|&byte| !is(byte)).unwrap_or(rest.len())
}

/// X+ ( `_` X+ )*: the greatest length, 0 where the text does not begin so.
pub fn groups(rest: &[u8], is: fn(u8) -> bool) -> usize {
    let mut length = run(rest, is);
    while length > 0 && rest.get(length) == Some(&b'_') {
        match run(&rest[length + 1..], is) {
            0 => break,
            more => length += 1 + more,
        }
    }
    length
}

/// Where a group starts that ends at `end`: after the last `_` from `start` on, else at `start`.
pub fn group_start(rest: &[u8], start: usize, end: usize) -> usize {
    rest[start..end].iter().rposition(|&byte| byte == b'_').map_or(start, |place| start + place + 1)
}
