//! Numbers of 4 bytes each, lowest first, one behind the other.

/// None where the bytes are no whole numbers.
pub fn read(bytes: &[u8]) -> Option<Vec<u32>> {
    let numbers = bytes.chunks_exact(4);
    let whole = numbers.remainder().is_empty();
    whole.then(|| numbers.map(|number| u32::from_le_bytes(number.try_into().expect("four bytes"))).collect())
}

pub fn push(bytes: &mut Vec<u8>, numbers: &[u32]) {
    numbers.iter().for_each(|number| bytes.extend(number.to_le_bytes()));
}
