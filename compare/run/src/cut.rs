//! The plain tokenizer beside the proved cutter: every cell of the three lists, the count and the refusal.

use common::kinds::{id, IDS};
use common::{Cut, LENT};
use generate::source::{source, Sort, SORTS};
use std::collections::HashSet;
use std::hash::{DefaultHasher, Hash, Hasher};

type Told = Result<(), String>;

/// The longest source that is cut.
const LONGEST: usize = 1_048_576;

#[cfg(feature = "library")]
fn proved(source: &[u8], rooms: [usize; 3]) -> Option<Cut> {
    Some(library::cut(source, rooms))
}

#[cfg(not(feature = "library"))]
fn proved(_: &[u8], _: [usize; 3]) -> Option<Cut> {
    None
}

/// The edges, then generated sources.
pub fn compare(count: u64, seed: u64, only: Option<&str>) -> Told {
    let wanted = |sort: Sort| only.is_none_or(|name| format!("{sort:?}").to_lowercase() == name);
    let round: Vec<usize> =
        (0..SORTS.len()).filter(|i| wanted(SORTS[*i].0)).flat_map(|i| vec![i; SORTS[i].1]).collect();
    if round.is_empty() {
        return Err(format!("no sort {}", only.unwrap_or_default()));
    }
    let edges = edges()?;
    let mut tallies = [Tally::default(); SORTS.len()];
    let mut distinct = HashSet::new();
    for n in 0..count {
        let i = round[n as usize % round.len()];
        let at = tallies[i].sources;
        let text = source(SORTS[i].0, seed, at);
        let rows =
            judge(&text, n).map_err(|e| differing(&format!("{:?} {seed} {at}", SORTS[i].0), &text, n, &e))?;
        tallies[i].add(&text, &rows);
        distinct.insert(hash(&text));
    }
    println!("sort      sources       rows  with hex bytes  with unknown  not UTF-8");
    for ((sort, _), tally) in SORTS.iter().zip(&tallies).filter(|(_, t)| t.sources > 0) {
        let Tally { sources, rows, hex, unknown, other } = tally;
        println!("{:<8}{sources:>9} {rows:>10} {hex:>15} {unknown:>13} {other:>10}", format!("{sort:?}"));
    }
    let sides = if proved(b"", [0; 3]).is_some() { "no difference" } else { "cut by the tokenizer alone" };
    println!("{edges} edges and {} distinct sources, {sides}", distinct.len());
    Ok(())
}

#[derive(Clone, Copy, Default)]
struct Tally {
    sources: u64,
    rows: u64,
    hex: u64,
    unknown: u64,
    other: u64,
}

impl Tally {
    fn add(&mut self, text: &[u8], rows: &[tokens::Row]) {
        let has = |id: u32| u64::from(rows.iter().any(|r| r.0 == id));
        self.sources += 1;
        self.rows += rows.len() as u64;
        self.hex += has(id::HEX_BYTE);
        self.unknown += has(id::UNKNOWN);
        self.other += u64::from(std::str::from_utf8(text).is_err());
    }
}

fn hash(text: &[u8]) -> u64 {
    let mut hasher = DefaultHasher::new();
    text.hash(&mut hasher);
    hasher.finish()
}

/// Holds the tokenizer's rows to tiling, and the proved cutter to the tokenizer, with rooms by the number.
fn judge(text: &[u8], number: u64) -> Result<Vec<tokens::Row>, String> {
    let rows = tokens::rows(text);
    let mut at = 0;
    for (id, start, end) in &rows {
        if *start != at || end <= start || *id as usize >= IDS.len() {
            return Err(format!("the tokenizer's row {id} {start}..{end} does not follow {at}"));
        }
        at = *end;
    }
    if at as usize != text.len() {
        return Err(format!("the tokenizer stops at {at}"));
    }
    let rooms = rooms(rows.len(), number);
    let Some(ours) = proved(text, rooms) else { return Ok(rows) };
    let plain = expected(text, &rows, rooms);
    if ours == plain {
        return Ok(rows);
    }
    Err(format!("rooms {rooms:?}\nthe tokenizer:\n{}the proved cutter:\n{}", show(&plain), show(&ours)))
}

/// Rooms that just suffice, or miss it by one in one list, or have some left.
fn rooms(rows: usize, number: u64) -> [usize; 3] {
    let mut rooms = [rows; 3];
    let list = (number / 8 % 3) as usize;
    match number % 8 {
        0 => {}
        1 => rooms[list] = rows.saturating_sub(1),
        2 => rooms[list] += 1,
        3 => rooms = rooms.map(|r| r / 2),
        _ => rooms = rooms.map(|r| r + 2),
    }
    rooms
}

/// What document 02 and the page of requests have the cutter answer for rows.
fn expected(text: &[u8], rows: &[tokens::Row], rooms: [usize; 3]) -> Cut {
    let mut lists = rooms.map(|room| vec![LENT; room]);
    let refusal = match (text.len() > LONGEST, rooms.iter().any(|room| *room < rows.len())) {
        (true, _) => 1,
        (_, true) => 13,
        _ => 0,
    };
    if refusal != 0 {
        return Cut { refusal, count: 0, lists };
    }
    for (n, (id, start, end)) in rows.iter().enumerate() {
        lists.iter_mut().zip([*id, *start, *end]).for_each(|(list, value)| list[n] = value);
    }
    Cut { refusal, count: rows.len() as u32, lists }
}

fn show(cut: &Cut) -> String {
    let mut out = format!("  refusal {}, {} rows\n", cut.refusal, cut.count);
    let [ids, starts, ends] = &cut.lists;
    for ((id, start), end) in ids.iter().zip(starts).zip(ends).take(60) {
        let name = IDS.get(*id as usize).copied().unwrap_or("?");
        out += &format!("  {start}..{end} {name}\n");
    }
    out
}

/// Tells a difference by a source from which no more bytes can be taken, if it is not a long one.
fn differing(case: &str, text: &[u8], number: u64, message: &str) -> String {
    if text.len() > 65_536 {
        return format!("{case}: {} bytes that begin with {}\n", text.len(), text[..9].escape_ascii());
    }
    let small = smaller(text, |t| judge(t, number).is_err());
    let now = judge(&small, number).err().unwrap_or_default();
    format!("{case}: {message}\nsmallest: {}\n{now}", small.escape_ascii())
}

/// Takes runs of bytes out, ever shorter ones, as long as it still fails.
pub fn smaller(text: &[u8], fails: impl Fn(&[u8]) -> bool) -> Vec<u8> {
    let mut best = text.to_vec();
    let mut run = best.len();
    while run > 0 {
        let mut at = 0;
        while at < best.len() {
            let mut tried = best.clone();
            tried.drain(at..best.len().min(at + run));
            if fails(&tried) {
                best = tried;
            } else {
                at += run;
            }
        }
        run = if run > 1 { run.div_ceil(2) } else { 0 };
    }
    best
}

/// Sources at the limits: sizes, every byte and every character in each mode, and the expressions' ends.
fn edges() -> Result<u64, String> {
    let mut count = 0;
    let mut put = |text: &[u8], numbers: &[u64]| {
        for number in numbers {
            judge(text, *number).map_err(|e| differing("edge", text, *number, &e))?;
        }
        count += 1;
        Ok::<(), String>(())
    };
    // Rooms that suffice, and those that miss it by one in each list.
    let (some, all) = ([4], [0, 1, 9, 17, 2, 4]);
    for length in [LONGEST, LONGEST + 1] {
        put(&vec![b' '; length], &all)?;
        put(&vec![b','; length], &all)?;
    }
    for open in ["", "a", "$", "$a={", "$a={01[", "\"", "/", "/*", "//", "0"] {
        for byte in 0..=255 {
            put(&[open.as_bytes(), &[byte]].concat(), &all)?;
            put(&[open.as_bytes(), &[byte, b'1']].concat(), &all)?;
        }
        TEXTS.iter().try_for_each(|text| put(&[open.as_bytes(), text].concat(), &all))?;
    }
    for (before, behind) in [("$", "\n"), ("$a={", "}\n"), ("$a={[", "]}\n"), ("", "a ")] {
        for block in 0..0x1100 {
            let characters = (256 * block..256 * block + 256).filter_map(char::from_u32);
            let text: String = characters.map(|c| format!("{before}{c}{behind}")).collect();
            put(text.as_bytes(), &some)?;
        }
    }
    Ok(count)
}

const TEXTS: [&[u8]; 24] = [
    b"",
    b"rule",
    b"rules",
    b"rul",
    b"base64wide",
    b"base64wid",
    b"0x",
    b"0x_",
    b"0o8",
    b"1.",
    b"1.._",
    b"1._",
    b"1_KB",
    b"1KBx",
    b"\r\n\r",
    b"\"\"\"",
    b"\"\"\"\"\"\"",
    b"\"\"\"a\"b\"\"\"",
    b"\"\"\"\\\n\"\"\"",
    b"/*/",
    b"/**/",
    b"//\xff\n",
    b"/a/isx",
    b"\xed\xa0\x80",
];
