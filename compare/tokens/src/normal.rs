//! Normal mode.

use crate::scan::{blank, block_comment, character, characters, line_comment, longer, run, sign, Found};
use common::kinds::{id, IDS};
use std::collections::HashMap;
use std::sync::LazyLock;

/// Every sign but `/`, which is none by itself.
const SIGNS: [(&str, u32); 27] = [
    ("<<", id::SHL),
    (">>", id::SHR),
    ("==", id::EQ),
    ("!=", id::NE),
    ("<=", id::LE),
    (">=", id::GE),
    ("<", id::LT),
    (">", id::GT),
    ("&", id::AMPERSAND),
    ("*", id::ASTERISK),
    ("\\", id::BACKSLASH),
    (":", id::COLON),
    (",", id::COMMA),
    (".", id::DOT),
    ("=", id::EQUAL),
    ("+", id::PLUS),
    ("-", id::HYPHEN),
    ("%", id::PERCENT),
    ("|", id::PIPE),
    ("^", id::CARET),
    ("~", id::TILDE),
    ("{", id::L_BRACE),
    ("}", id::R_BRACE),
    ("(", id::L_PAREN),
    (")", id::R_PAREN),
    ("[", id::L_BRACKET),
    ("]", id::R_BRACKET),
];

/// The longest of all that match; the crate's order decides nowhere but between a keyword and an identifier.
pub fn longest(rest: &[u8]) -> Found {
    let literals = [string(rest), lines(rest), regexp(rest), block_comment(rest), line_comment(rest)];
    let words = [word(rest), mark(rest), integer(rest), float(rest)];
    let others = [sign(rest, &SIGNS), blank(rest)];
    literals.into_iter().chain(words).chain(others).fold(None, longer)
}

/// What nothing matches: one byte that begins no character, or else the characters up to the first white
/// space. The piece that the lexer gave up at is taken to be one byte (docs/DIFFERENCES.md), so the row is
/// no shorter.
pub fn unexpected(rest: &[u8]) -> (u32, usize) {
    if character(rest).is_none() {
        return (id::INVALID_UTF8, 1);
    }
    (id::UNKNOWN, characters(rest, |c| !c.is_whitespace()).max(1))
}

/// Zeros of the decimal digits past ASCII, Unicode edition 14; each has its nine others behind it.
const ZEROS: [u32; 65] = [
    0x660, 0x6F0, 0x7C0, 0x966, 0x9E6, 0xA66, 0xAE6, 0xB66, 0xBE6, 0xC66, 0xCE6, 0xD66, 0xDE6, 0xE50, 0xED0,
    0xF20, 0x1040, 0x1090, 0x17E0, 0x1810, 0x1946, 0x19D0, 0x1A80, 0x1A90, 0x1B50, 0x1BB0, 0x1C40, 0x1C50,
    0xA620, 0xA8D0, 0xA900, 0xA9D0, 0xA9F0, 0xAA50, 0xABF0, 0xFF10, 0x104A0, 0x10D30, 0x11066, 0x110F0,
    0x11136, 0x111D0, 0x112F0, 0x11450, 0x114D0, 0x11650, 0x116C0, 0x11730, 0x118E0, 0x11950, 0x11C50,
    0x11D50, 0x11DA0, 0x16A60, 0x16AC0, 0x16B50, 0x1D7CE, 0x1D7D8, 0x1D7E2, 0x1D7EC, 0x1D7F6, 0x1E140,
    0x1E2F0, 0x1E950, 0x1FBF0,
];

/// `[[:alpha:]]|\d|_`: letters are ASCII's, digits are of any script.
fn in_word(c: char) -> bool {
    let digit = |c: char| ZEROS.iter().any(|zero| (*zero..*zero + 10).contains(&u32::from(c)));
    c.is_ascii_alphanumeric() || c == '_' || digit(c)
}

/// A keyword's text is its id's name in small letters.
static KEYWORDS: LazyLock<HashMap<Vec<u8>, u32>> = LazyLock::new(|| {
    let text = |name: &str| Some(name.strip_suffix("_KW")?.to_ascii_lowercase().into_bytes());
    IDS.iter().zip(0..).filter_map(|(name, id)| Some((text(name)?, id))).collect()
});

/// A keyword, or an identifier.
fn word(rest: &[u8]) -> Found {
    if !rest[0].is_ascii_alphabetic() && rest[0] != b'_' {
        return None;
    }
    let length = characters(rest, in_word);
    let keyword = KEYWORDS.get(&rest[..length]).copied();
    Some((keyword.unwrap_or(id::IDENT), length))
}

/// A pattern's identifier, count, offset or length.
fn mark(rest: &[u8]) -> Found {
    let id = match rest[0] {
        b'$' => id::PATTERN_IDENT,
        b'#' => id::PATTERN_COUNT,
        b'@' => id::PATTERN_OFFSET,
        b'!' => id::PATTERN_LENGTH,
        _ => return None,
    };
    Some((id, 1 + characters(&rest[1..], in_word)))
}

/// A digit of the base, then such digits and underscores.
fn digits(rest: &[u8], digit: fn(&u8) -> bool) -> Option<usize> {
    let first = rest.first()?;
    digit(first).then(|| run(rest, |b| digit(&b) || b == b'_'))
}

fn integer(rest: &[u8]) -> Found {
    let based = |prefix: &[u8], digit: fn(&u8) -> bool| {
        let length = digits(rest.strip_prefix(prefix)?, digit)?;
        Some((id::INTEGER_LIT, prefix.len() + length))
    };
    let unit = |length: usize| {
        let behind = &rest[length..];
        length + if behind.starts_with(b"KB") || behind.starts_with(b"MB") { 2 } else { 0 }
    };
    let decimal = digits(rest, u8::is_ascii_digit).map(|length| (id::INTEGER_LIT, unit(length)));
    let octal = |b: &u8| matches!(b, b'0'..=b'7');
    longer(longer(based(b"0x", u8::is_ascii_hexdigit), based(b"0o", octal)), decimal)
}

/// Digits, a dot, and at least one digit or underscore.
fn float(rest: &[u8]) -> Found {
    let whole = digits(rest, u8::is_ascii_digit)?;
    let part = rest[whole..].strip_prefix(b".")?;
    let length = run(part, |b| b.is_ascii_digit() || b == b'_');
    (length > 0).then_some((id::FLOAT_LIT, whole + 1 + length))
}

/// How long the text is up to a byte that ends it; a backslash goes with the byte behind it, which may be
/// anything but a line feed.
fn escaped(rest: &[u8], ends: impl Fn(u8) -> bool) -> usize {
    let mut at = 0;
    loop {
        at += match rest[at..] {
            [b'\\', next, ..] if next != b'\n' => 2,
            [b, ..] if b != b'\\' && !ends(b) => 1,
            _ => return at,
        }
    }
}

/// A string on one line.
fn string(rest: &[u8]) -> Found {
    let body = rest.strip_prefix(b"\"")?;
    let length = escaped(body, |b| b == b'"' || b == b'\n');
    body[length..].starts_with(b"\"").then_some((id::STRING_LIT, 1 + length + 1))
}

/// A string between three quotes, over any number of lines.
fn lines(rest: &[u8]) -> Found {
    let body = rest.strip_prefix(b"\"\"\"")?;
    let length = escaped(body, |b| b == b'"');
    body[length..].starts_with(b"\"\"\"").then_some((id::STRING_LIT, 3 + length + 3))
}

/// A regular expression and up to two letters. A star may not come first: that begins a comment.
fn regexp(rest: &[u8]) -> Found {
    let body = rest.strip_prefix(b"/")?;
    let length = escaped(body, |b| b == b'/' || b == b'\n');
    if length == 0 || body[0] == b'*' || !body[length..].starts_with(b"/") {
        return None;
    }
    let letters = run(&body[length + 1..], |b| b.is_ascii_alphabetic());
    Some((id::REGEXP, 1 + length + 1 + letters.min(2)))
}
