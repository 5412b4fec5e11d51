//! Sources for the tokenizers: rule texts and other bytes, each made from a seed and its number alone.

use crate::rng::Rng;
use crate::{sentence, spoil, text};
use common::kinds::id;

#[derive(Clone, Copy, Debug, PartialEq, Eq)]
pub enum Sort {
    Rules,
    Faulty,
    Mutant,
    Pieces,
    Short,
    Utf8,
    Bytes,
}

/// The sorts, and how many sources of each there are in a round of 20.
pub const SORTS: [(Sort, usize); 7] = [
    (Sort::Rules, 2),
    (Sort::Faulty, 2),
    (Sort::Mutant, 4),
    (Sort::Pieces, 4),
    (Sort::Short, 6),
    (Sort::Utf8, 1),
    (Sort::Bytes, 1),
];

pub fn source(sort: Sort, seed: u64, number: u64) -> Vec<u8> {
    let rng = &mut Rng::new(seed, number);
    match sort {
        Sort::Rules => spell(&sentence(rng), rng),
        Sort::Faulty => {
            let faults = 1 + rng.below(4);
            let ids = sentence(rng);
            spell(&spoil::mutate(ids, faults, rng), rng)
        }
        Sort::Mutant => {
            let rules = spell(&sentence(rng), rng);
            damage(rules, rng)
        }
        Sort::Pieces => behind_opening(14, rng, |rng| rng.pick(&PIECES).to_vec()),
        Sort::Short => short(number),
        Sort::Utf8 => behind_opening(40, rng, |rng| character(rng).to_string().into_bytes()),
        Sort::Bytes => behind_opening(40, rng, |rng| vec![byte(rng)]),
    }
}

fn sentence(rng: &mut Rng) -> Vec<u32> {
    if rng.percent(40) {
        sentence::rules(rng)
    } else {
        sentence::file(rng)
    }
}

/// Rows as people write them. Two rows stand close only where one of them can take up nothing more, but for
/// a few, and a jump is mostly kept to what its mode takes.
pub fn spell(ids: &[u32], rng: &mut Rng) -> Vec<u8> {
    let mut out = Vec::new();
    let close = rng.pick(&[0, 30, 90]);
    let odd = rng.pick(&[0, 0, 8]);
    let (mut hex, mut plain) = (false, false);
    for (n, id) in ids.iter().enumerate() {
        let word = match *id {
            id::INTEGER_LIT if plain => rng.pick(&["0", "1", "12", "0x1F", "0o7"]).as_bytes().to_vec(),
            _ if rng.percent(25) => fancy(*id, rng),
            _ => text::usual(*id, rng),
        };
        let parted = |b: Option<&u8>| b.is_none_or(|b| b"{}()[]:,".contains(b));
        let may_touch = parted(out.last()) || parted(word.first()) || rng.percent(odd);
        if !(may_touch && rng.percent(close)) {
            let gap = if plain { rng.pick(&[" ", "\n", "\u{a0}\t"]) } else { gap(rng) };
            out.extend_from_slice(gap.as_bytes());
        }
        out.extend(word);
        match *id {
            id::L_BRACE => hex = n > 0 && ids[n - 1] == id::EQUAL,
            id::R_BRACE => hex = false,
            id::L_BRACKET => plain = hex && rng.percent(95),
            id::R_BRACKET => plain = false,
            _ => {}
        }
    }
    out
}

fn gap(rng: &mut Rng) -> &'static str {
    match rng.below(24) {
        0 => "\n",
        1 => "\r\n    ",
        2 => "\n\t\t",
        3 => " // a note\n",
        4 => " /* a note */ ",
        5 => "\n/**\n * two lines\n **/\n",
        6 => "\u{a0}\u{2003}",
        7 => "\n\n  ",
        _ => " ",
    }
}

/// Less usual texts for an id, at the edges of what its expression takes.
fn fancy(id: u32, rng: &mut Rng) -> Vec<u8> {
    let texts: &[&str] = match id {
        id::COMMENT => &["//", "/***/", "/* \" */", "// */\n", "/*\u{e9}*/"],
        id::IDENT => &["_", "a1", "ruleset", "in_", "Rule", "a\u{661}b", "\u{5f}\u{1d7d9}"],
        id::STRING_LIT => &[
            "\"a\\\"b\"",
            "\"\\\\\"",
            "\"// no\"",
            "\"/* no\"",
            "\"\u{e9}\"",
            "\"\"\"two\nlines\"\"\"",
            "\"\"\"\\\"\"\"\"",
        ],
        id::REGEXP => &["/a\\/b/", "/[^\"]*/s", "/\\.(exe|dll)/is", "/a /", "/=/"],
        id::INTEGER_LIT => &["1_000", "0xFf_", "0o17", "3MB", "007", "0"],
        id::FLOAT_LIT => &["1_0.5_", "0._1", "9.9"],
        id::PATTERN_IDENT => &["$_", "$a1", "$rule", "$\u{ff11}"],
        id::PATTERN_COUNT => &["#_", "#a1"],
        id::PATTERN_OFFSET => &["@_", "@a1"],
        id::PATTERN_LENGTH => &["!_", "!a1"],
        id::HEX_BYTE => &["a?", "?B", "~?F", "e0", "00"],
        _ => return text::usual(id, rng),
    };
    rng.pick(texts).as_bytes().to_vec()
}

/// One to five faults of the kinds that editing and cutting make.
fn damage(mut text: Vec<u8>, rng: &mut Rng) -> Vec<u8> {
    for _ in 0..1 + rng.below(5) {
        let at = rng.below(text.len() + 1);
        let end = text.len().min(at + 1 + rng.below(6));
        let to = rng.below(text.len() + 1);
        match rng.below(8) {
            0 | 1 => drop(text.drain(at..end)),
            2 | 3 => drop(text.splice(at..at, rng.pick(&PIECES).iter().copied())),
            4 => drop(text.splice(at..end, rng.pick(&PIECES).iter().copied())),
            5 => drop(text.splice(to..to, text[at..end].to_vec())),
            6 => text.insert(at, byte(rng)),
            _ if rng.percent(30) => text.truncate(at),
            _ => text.iter_mut().skip(at).take(1).for_each(|b| *b ^= 1 << rng.below(8)),
        }
    }
    text
}

/// What the tokenizer's expressions turn on.
const PIECES: [&[u8]; 84] = [
    b"/*",
    b"*/",
    b"*",
    b"/",
    b"//",
    b"/a",
    b"\"",
    b"\"\"\"",
    b"\\\"",
    b"\\",
    b"\\\n",
    b"\n",
    b"\r",
    b"\r\n",
    b" ",
    b"\t",
    b"\x0b",
    b"\x0c",
    b"\0",
    b"0x",
    b"0o",
    b"0",
    b"1",
    b"8",
    b"1.._",
    b"1.",
    b".",
    b"_",
    b"KB",
    b"MB",
    b"K",
    b"9f",
    b"$a = {",
    b"$a={",
    b"$b",
    b"$",
    b"=",
    b"{",
    b"[",
    b"[1-",
    b"]",
    b"}",
    b"-",
    b"~",
    b"?",
    b"??",
    b"~a",
    b"a0",
    b"0a",
    b"F",
    b"rule",
    b"in",
    b"x",
    b"strings:",
    b"!=",
    b"!",
    b"#",
    b"@",
    b"<<",
    b">=",
    b"==",
    b"|",
    b"(",
    b")",
    b"`",
    b";",
    b"'",
    b"%",
    "\u{e9}".as_bytes(),
    "\u{a0}".as_bytes(),
    "\u{2003}".as_bytes(),
    "\u{3000}".as_bytes(),
    "\u{85}".as_bytes(),
    "\u{2028}".as_bytes(),
    "\u{660}".as_bytes(),
    "\u{ff15}".as_bytes(),
    "\u{1d7d9}".as_bytes(),
    "\u{1f600}".as_bytes(),
    b"\xe2\x80",
    b"\xed\xa0\x80",
    b"\xf0\x9f",
    b"\xff",
    b"\xc3",
    b"\x80",
];

/// What stands before the enumerated pieces, and the pieces.
const CONTEXTS: [(&[u8], &[&[u8]]); 14] = [
    (b"", &[b"\"", b"\\", b"\n", b"a"]),
    (b"\"\"\"", &[b"\"", b"\\", b"\n", b"a"]),
    (b"", &[b"/", b"*", b"\\", b"\n", b"i"]),
    (b"", &[b"0", b"1", b"8", b"a", b"x", b"o", b".", b"_", b"K", b"B"]),
    (b"", &[b"$", b"=", b"{", b"}", b" ", b"00", b"[", b"/**/", b"\xff"]),
    (b"$a={", &[b"0", b"a", b"?", b"~", b" ", b"/", b"*", b"[", b"]", b"}", b"-"]),
    (b"$a={[", &[b"0", b"1", b"x", b"o", b"8", b"_", b"-", b"]", b"[", b"a", b" ", b"/", b"*"]),
    (b"$a={/*", &[b"\xe2", b"\x80", b"\xa0", b"*", b"/", b"\n", b"11"]),
    (b"", &[b"\xe0", b"\xed", b"\xf0", b"\xf4", b"\x80", b"\x90", b"\x9f", b"\xbf", b"a", b" "]),
    (b"$", &[b"\xc2", b"\xd9", b"\xe2", b"\x80", b"\xa0", b"\xa9", b"\xaf", b"\x84", b"b"]),
    (b"", &[b"<", b">", b"=", b"!", b"a", b"$", b"#", b"9"]),
    (b"", &[b"\r", b"\n", b" ", b"\t", b"\xc2\xa0", b"\x0b", b"\xe3\x80\x80", b"a", b"?"]),
    (b"", &[b"i", b"n", b"t", b"h", b"e", b"m", b"_", b"o", b"r"]),
    (b"$a={", &[b"$b={", b"[", b"]", b"1", b"}", b"01", b"(", b"|", b"//", b"\n"]),
];

/// All sequences over a few pieces, shortest first. The number alone says which.
fn short(number: u64) -> Vec<u8> {
    let (before, pieces) = CONTEXTS[(number % CONTEXTS.len() as u64) as usize];
    let mut rest = number / CONTEXTS.len() as u64;
    let mut out = before.to_vec();
    while rest > 0 {
        rest -= 1;
        out.extend_from_slice(pieces[(rest % pieces.len() as u64) as usize]);
        rest /= pieces.len() as u64;
    }
    out
}

/// Up to so many parts, often where a hex pattern or a jump has just begun.
fn behind_opening(most: usize, rng: &mut Rng, next: impl Fn(&mut Rng) -> Vec<u8>) -> Vec<u8> {
    let mut out = rng.pick(&["", "", "$a = {", "$a={01[", "$", "a"]).as_bytes().to_vec();
    for _ in 0..rng.below(most + 1) {
        out.extend(next(rng));
    }
    out
}

/// Any character, most of them where some class begins or ends.
fn character(rng: &mut Rng) -> char {
    let (from, to) = rng.pick(&[
        (0, 0x80),
        (0x20, 0x7F),
        (0x30, 0x3A),
        (0x80, 0x100),
        (0x600, 0x800),
        (0x900, 0xF40),
        (0x1000, 0x1CC0),
        (0x1FF0, 0x2070),
        (0x2FF0, 0x3010),
        (0xA600, 0xAC00),
        (0xD7F0, 0xE010),
        (0xFF00, 0xFF20),
        (0x10480, 0x12000),
        (0x16A50, 0x16B60),
        (0x1D7C0, 0x1D800),
        (0x1E100, 0x1FC00),
        (0, 0x11_0000),
    ]);
    char::from_u32(from + rng.below((to - from) as usize) as u32).unwrap_or('\u{fffd}')
}

fn byte(rng: &mut Rng) -> u8 {
    if rng.percent(50) {
        rng.number() as u8
    } else {
        rng.pick(b" \n\r\t\"\\/*$#@!={}[]()|~?-0123456789abcdefxo_.KMB")
    }
}
