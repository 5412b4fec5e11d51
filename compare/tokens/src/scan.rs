//! What the modes share. Every function says how long a match at the front is, if there is one.

use common::kinds::id;

/// An id and the length of its text.
pub type Found = Option<(u32, usize)>;

/// How many bytes at the front are of a sort.
pub fn run(rest: &[u8], of: impl Fn(u8) -> bool) -> usize {
    rest.iter().take_while(|b| of(**b)).count()
}

/// The character at the front, if the bytes there are well-formed.
pub fn character(rest: &[u8]) -> Option<char> {
    match rest.first()? {
        // Most are; the chunks take their time.
        ascii @ 0..=0x7F => Some(char::from(*ascii)),
        _ => rest[..rest.len().min(4)].utf8_chunks().next()?.valid().chars().next(),
    }
}

/// How many bytes the characters of a sort at the front have.
pub fn characters(rest: &[u8], of: impl Fn(char) -> bool) -> usize {
    let mut length = 0;
    while let Some(c) = character(&rest[length..]).filter(|c| of(*c)) {
        length += c.len_utf8();
    }
    length
}

/// The longer of the two; the first where they are equally long.
pub fn longer(one: Found, other: Found) -> Found {
    match (one, other) {
        (Some(a), Some(b)) if b.1 > a.1 => Some(b),
        (None, other) => other,
        _ => one,
    }
}

/// A row for the sign at the front.
pub fn sign(rest: &[u8], signs: &[(&str, u32)]) -> Found {
    let fits = signs.iter().filter(|(text, _)| rest.starts_with(text.as_bytes()));
    fits.map(|(text, id)| (*id, text.len())).max_by_key(|(_, length)| *length)
}

/// White space and line ends, which are the same in every mode.
pub fn blank(rest: &[u8]) -> Found {
    let space =
        |c: char| matches!(c, ' ' | '\t' | '\u{a0}' | '\u{2000}'..='\u{200a}' | '\u{202f}' | '\u{205f}');
    match characters(rest, space) {
        0 => sign(rest, &[("\n", id::NEWLINE), ("\r", id::NEWLINE), ("\r\n", id::NEWLINE)]),
        length => Some((id::WHITESPACE, length)),
    }
}

/// From `//` on, the rest of the line, whatever its bytes are.
pub fn line_comment(rest: &[u8]) -> Found {
    let body = rest.strip_prefix(b"//")?;
    Some((id::COMMENT, 2 + run(body, |b| b != b'\n')))
}

/// From `/*` to the first `*/` behind it: the expression takes no `/` right behind a star.
pub fn block_comment(rest: &[u8]) -> Found {
    let body = rest.strip_prefix(b"/*")?;
    let end = body.windows(2).position(|pair| pair == b"*/")?;
    Some((id::COMMENT, 2 + end + 2))
}
