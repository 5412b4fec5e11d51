//! Hex jump mode.

use crate::scan::{blank, longer, run, Found};
use common::kinds::id;

pub fn longest(rest: &[u8]) -> Found {
    let hyphen = (rest[0] == b'-').then_some((id::HYPHEN, 1));
    hyphen.or_else(|| integer(rest)).or_else(|| blank(rest))
}

/// Hexadecimal, octal or decimal, without underscores; `0x` without a digit behind it is just `0`.
fn integer(rest: &[u8]) -> Found {
    let based = |prefix: &[u8], digit: fn(&u8) -> bool| {
        let digits = run(rest.strip_prefix(prefix)?, |b| digit(&b));
        (digits > 0).then_some((id::INTEGER_LIT, prefix.len() + digits))
    };
    let octal = |b: &u8| matches!(b, b'0'..=b'7');
    let decimal = based(b"", u8::is_ascii_digit);
    longer(longer(based(b"0x", u8::is_ascii_hexdigit), based(b"0o", octal)), decimal)
}
