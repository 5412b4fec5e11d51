//! The UTF-8 test: the Unicode Standard's table of well-formed byte sequences (request (iii)), and where the
//! bad byte is (request (vi)).

use std::ops::RangeInclusive;

/// What stands behind a first byte that is not alone: the range of the next byte, and how many more follow.
fn behind(first: u8) -> Option<(RangeInclusive<u8>, usize)> {
    Some(match first {
        0xC2..=0xDF => (0x80..=0xBF, 0),
        0xE0 => (0xA0..=0xBF, 1),
        0xED => (0x80..=0x9F, 1),
        0xE1..=0xEF => (0x80..=0xBF, 1),
        0xF0 => (0x90..=0xBF, 2),
        0xF4 => (0x80..=0x8F, 2),
        0xF1..=0xF3 => (0x80..=0xBF, 2),
        _ => return None,
    })
}

/// The place of the first byte that can neither begin nor continue a character; of a character that the end
/// cuts short, its first byte.
pub fn bad_byte(bytes: &[u8]) -> Option<usize> {
    let mut at = 0;
    while at < bytes.len() {
        if bytes[at].is_ascii() {
            at += 1;
            continue;
        }
        let Some((range, more)) = behind(bytes[at]) else { return Some(at) };
        let ranges = std::iter::once(range).chain(std::iter::repeat_n(0x80..=0xBF, more));
        let begun = at;
        at += 1;
        for range in ranges {
            match bytes.get(at) {
                None => return Some(begun),
                Some(byte) if !range.contains(byte) => return Some(at),
                Some(_) => at += 1,
            }
        }
    }
    None
}

pub fn is_text(bytes: &[u8]) -> bool {
    bad_byte(bytes).is_none()
}
