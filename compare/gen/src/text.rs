//! Texts for rows. Ids alone steer a reading; texts are seen in errors only, so any text will do.

use crate::rng::Rng;
use common::kinds::{id, IDS};

pub type Row = (u32, Vec<u8>);

const SIGNS: [(u32, &str); 27] = [
    (id::SHL, "<<"),
    (id::SHR, ">>"),
    (id::EQ, "=="),
    (id::NE, "!="),
    (id::LT, "<"),
    (id::GT, ">"),
    (id::LE, "<="),
    (id::GE, ">="),
    (id::AMPERSAND, "&"),
    (id::ASTERISK, "*"),
    (id::BACKSLASH, "\\"),
    (id::CARET, "^"),
    (id::COMMA, ","),
    (id::COLON, ":"),
    (id::DOT, "."),
    (id::EQUAL, "="),
    (id::HYPHEN, "-"),
    (id::PERCENT, "%"),
    (id::PIPE, "|"),
    (id::PLUS, "+"),
    (id::TILDE, "~"),
    (id::L_BRACE, "{"),
    (id::R_BRACE, "}"),
    (id::L_PAREN, "("),
    (id::R_PAREN, ")"),
    (id::L_BRACKET, "["),
    (id::R_BRACKET, "]"),
];

/// A text that a tokenizer could have cut for the id.
pub fn usual(id: u32, rng: &mut Rng) -> Vec<u8> {
    if let Some((_, sign)) = SIGNS.iter().find(|(i, _)| *i == id) {
        return sign.as_bytes().to_vec();
    }
    if let Some(word) = IDS[id as usize].strip_suffix("_KW") {
        return word.to_lowercase().into_bytes();
    }
    let texts: &[&str] = match id {
        id::WHITESPACE => &[" ", "  ", "\t"],
        id::NEWLINE => &["\n", "\r\n"],
        id::COMMENT => &["// note", "/* a */", "/**/"],
        id::STRING_LIT => &["\"a\"", "\"\"", "\"fifteen bytes\"", "\"sixteen bytes.\"", "\"a, found `b`\""],
        id::REGEXP => &["/a+/", "/b[0-9]{2,3}/i"],
        id::IDENT => &["a", "b", "pe", "a_name_of_15_ch", "a_name_of_16_chr", "very_long_identifier_indeed"],
        id::PATTERN_IDENT => &["$", "$a", "$b"],
        id::PATTERN_COUNT => &["#", "#a"],
        id::PATTERN_OFFSET => &["@", "@a"],
        id::PATTERN_LENGTH => &["!", "!a"],
        id::FLOAT_LIT => &["1.5", "0.0"],
        id::INTEGER_LIT => &["0", "1", "0x10", "100KB"],
        id::HEX_BYTE => &["00", "A?", "~FF", "??"],
        id::INVALID_UTF8 => return vec![rng.pick(&[0xFF, 0xC0, 0x80, 0xF5])],
        _ => &["?", "`", "/* open", "\"open", "/open", "'"],
    };
    rng.pick(texts).as_bytes().to_vec()
}

/// A text at a boundary: lengths of 15 and 16 bytes, unclosed things, or bytes about UTF-8's limits.
pub fn odd(rng: &mut Rng) -> Vec<u8> {
    let texts: [&[u8]; 14] = [
        b"fifteen bytes..",
        b"sixteen bytes...",
        b"/*",
        b"/",
        b"\"",
        b"/* fifteen byte",
        b"/* sixteen bytes",
        "\u{e9}\u{e9}\u{e9}\u{e9}\u{e9}\u{e9}\u{e9}.".as_bytes(),
        "\u{20ac}\u{20ac}\u{20ac}\u{20ac}\u{20ac}.".as_bytes(),
        "\u{1f600}".as_bytes(),
        b"\"\xF0\x9F",
        b"/\x80",
        b"a\xC3",
        b", found `x`",
    ];
    match rng.below(10) {
        0 => (0..1 + rng.below(20)).map(|_| rng.number() as u8).collect(),
        1..=3 => character(rng),
        _ => rng.pick(&texts).to_vec(),
    }
}

/// The limits of the first bytes in the table of well-formed sequences, each with a neighbour outside.
const FIRSTS: [u8; 17] =
    [0x7F, 0x80, 0xBF, 0xC1, 0xC2, 0xDF, 0xE0, 0xE1, 0xEC, 0xED, 0xEE, 0xEF, 0xF0, 0xF1, 0xF3, 0xF4, 0xF5];

/// The same for the bytes behind.
pub const OTHERS: [u8; 8] = [0x7F, 0x80, 0x8F, 0x90, 0x9F, 0xA0, 0xBF, 0xC0];

/// A first byte and others, each just within or just outside its range.
fn character(rng: &mut Rng) -> Vec<u8> {
    let mut bytes = vec![rng.pick(&FIRSTS)];
    for _ in 0..rng.below(4) {
        bytes.push(rng.pick(&OTHERS));
    }
    bytes
}

/// Usual texts for ids, with odd ones strewn in by the given chance.
pub fn rows(ids: &[u32], odd_percent: usize, rng: &mut Rng) -> Vec<Row> {
    let mut rows = Vec::new();
    for id in ids {
        let text = if rng.percent(odd_percent) { odd(rng) } else { usual(*id, rng) };
        rows.push((*id, text));
    }
    rows
}

/// The id of a word as rule files have it; hex bytes are written with a leading `h`.
pub fn id_of(word: &str) -> u32 {
    let keyword = format!("{}_KW", word.to_uppercase());
    if let Some(id) = IDS.iter().position(|n| *n == keyword) {
        return id as u32;
    }
    if let Some((id, _)) = SIGNS.iter().find(|(_, s)| *s == word) {
        return *id;
    }
    let (first, rest) = word.split_at(1);
    match first {
        "$" => id::PATTERN_IDENT,
        "#" => id::PATTERN_COUNT,
        "@" => id::PATTERN_OFFSET,
        "!" => id::PATTERN_LENGTH,
        "\"" => id::STRING_LIT,
        "/" => id::REGEXP,
        "h" if rest.len() == 2 => id::HEX_BYTE,
        d if d.as_bytes()[0].is_ascii_digit() && word.contains('.') => id::FLOAT_LIT,
        d if d.as_bytes()[0].is_ascii_digit() => id::INTEGER_LIT,
        _ => id::IDENT,
    }
}
