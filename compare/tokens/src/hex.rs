//! Hex pattern mode.

use crate::scan::{blank, block_comment, line_comment, sign, Found};
use common::kinds::id;
use std::str::from_utf8;

const SIGNS: [(&str, u32); 5] =
    [("|", id::PIPE), ("(", id::L_PAREN), (")", id::R_PAREN), ("[", id::L_BRACKET), ("]", id::R_BRACKET)];

pub fn longest(rest: &[u8]) -> Found {
    // No two of these begin alike.
    byte(rest).or_else(|| sign(rest, &SIGNS)).or_else(|| blank(rest)).or_else(|| comment(rest))
}

/// `~?[?0-9a-fA-F]{2}`
fn byte(rest: &[u8]) -> Found {
    let tilde = usize::from(rest[0] == b'~');
    let digits = rest.get(tilde..tilde + 2)?;
    let digit = |b: &u8| *b == b'?' || b.is_ascii_hexdigit();
    digits.iter().all(digit).then_some((id::HEX_BYTE, tilde + 2))
}

/// Here the block comment's expression is over characters, so one with other bytes in it is none.
fn comment(rest: &[u8]) -> Found {
    let block = block_comment(rest).filter(|(_, length)| from_utf8(&rest[..*length]).is_ok());
    line_comment(rest).or(block)
}
