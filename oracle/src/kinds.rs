//! The port's numbers of the kinds, read from its page, so that no second table exists.

use crate::token::TokenType;
use std::sync::OnceLock;

const PAGE: &str = include_str!("../../docs/KINDS.md");

/// Room for every number that the published enum gives a kind.
const KINDS: usize = 256;

/// The kind's number; its line on the page is looked for only once.
pub fn number(kind: TokenType) -> u32 {
    static NUMBERS: [OnceLock<u32>; KINDS] = [const { OnceLock::new() }; KINDS];
    *NUMBERS[kind as usize].get_or_init(|| on_page(&format!("{kind:?}")))
}

/// A kind's line begins `| number | name |`.
fn on_page(name: &str) -> u32 {
    let number = |line: &str| {
        let (number, rest) = line.strip_prefix("| ")?.split_once(" | ")?;
        rest.starts_with(&format!("{name} |")).then(|| number.parse().expect("a line of KINDS.md has no number"))
    };
    PAGE.lines().find_map(number).unwrap_or_else(|| panic!("KINDS.md has no {name}"))
}
