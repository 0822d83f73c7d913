//! A script of calls of a stream, as a record's text has it: two bytes of length, lowest first, and so many bytes for a part; 65,535 in the
//! place of a length for a finish call.

pub enum Call<'a> {
    Part(&'a [u8]),
    Finish,
}

const FINISH: u16 = 65_535;

/// The first call, and the script behind it; none where the script ends inside it.
pub fn first(script: &[u8]) -> Option<(Call<'_>, &[u8])> {
    let (length, behind) = script.split_first_chunk()?;
    match u16::from_le_bytes(*length) {
        FINISH => Some((Call::Finish, behind)),
        length => behind.split_at_checked(length.into()).map(|(part, behind)| (Call::Part(part), behind)),
    }
}

/// Puts the call behind others. A part is shorter than 65,535 bytes.
pub fn push(script: &mut Vec<u8>, call: Call) {
    match call {
        Call::Part(part) => {
            let length = u16::try_from(part.len()).ok().filter(|&length| length != FINISH);
            script.extend(length.expect("the part is too long for a script").to_le_bytes());
            script.extend(part);
        }
        Call::Finish => script.extend(FINISH.to_le_bytes()),
    }
}
