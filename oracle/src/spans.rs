//! A span of a text and how long a buffer is lent, as a record of mode `literal` has them: the record's offset is the span's start, and its
//! text is the span's length and the buffer's, four bytes each, lowest first, then the text that the span is of.

#[derive(Clone, Copy)]
pub struct Span {
    pub start: usize,
    pub length: usize,
}

/// Longer than the bytes of any literal that a record holds.
pub const LONGEST_BUFFER: usize = 70_000;

/// The span, the buffer's length and the text; none where the record is too short for them, or the buffer too long.
pub fn read(start: usize, record: &[u8]) -> Option<(Span, usize, &[u8])> {
    let (length, behind) = record.split_first_chunk()?;
    let (room, text) = behind.split_first_chunk()?;
    let [length, room] = [length, room].map(|number| u32::from_le_bytes(*number) as usize);
    (room <= LONGEST_BUFFER).then_some((Span { start, length }, room, text))
}

/// Makes the text a record's: puts both lengths before it.
pub fn put(text: &mut Vec<u8>, span: Span, room: usize) {
    let numbers = [span.length, room].map(|number| (number as u32).to_le_bytes());
    text.splice(..0, numbers.concat());
}
