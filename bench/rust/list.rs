//! The published lexer, unchanged, with a list of five numbers a record, for C to call.
#![allow(dead_code, unused_imports)]

// On a machine without an operating system the published files get from these what std gives them otherwise.
#[cfg(bare)]
mod bare;
#[cfg(bare)]
extern crate alloc;
#[cfg(bare)]
extern crate core as std;

mod error {
    #[cfg(bare)]
    use crate::bare::prelude::*;
    include!("../../oracle/turso_parser/src/error.rs");
}
mod token {
    #[cfg(bare)]
    use crate::bare::prelude::*;
    include!("../../oracle/turso_parser/src/token.rs");
}
mod lexer {
    #[cfg(bare)]
    use crate::bare::prelude::*;
    include!("../../oracle/turso_parser/src/lexer.rs");

    const RECORD_WIDTH: usize = 5;

    /// Kind (the Rust's number), start, length, line and column of each token; the number of records. It stops where the lexer refuses or the
    /// list is full. The lexer counts no lines itself, so each token's bytes are looked at for 0A.
    pub fn list(text: &[u8], list: &mut [u32]) -> u64 {
        let mut lexer = Lexer::new(text);
        let mut records = 0;
        let mut line = 1;
        let mut line_start = 0;
        for record in list.chunks_exact_mut(RECORD_WIDTH) {
            let start = lexer.offset;
            let Some(Ok(token)) = lexer.next() else { break };
            record[0] = token.token_type as u32;
            record[1] = start as u32;
            record[2] = (lexer.offset - start) as u32;
            record[3] = line;
            record[4] = (start - line_start + 1) as u32;
            records += 1;
            let mut at = start;
            while let Some(before) = text[at..lexer.offset].iter().position(|&byte| byte == b'\n') {
                at += before + 1;
                line += 1;
                line_start = at;
            }
        }
        records
    }
}
type Result<T> = std::result::Result<T, error::Error>;

/// # Safety
/// Both pointers must be good for the lengths beside them.
#[no_mangle]
pub unsafe extern "C" fn rust_list(text: *const u8, length: u64, list: *mut u32, numbers: u64) -> u64 {
    lexer::list(std::slice::from_raw_parts(text, length as usize), std::slice::from_raw_parts_mut(list, numbers as usize))
}
