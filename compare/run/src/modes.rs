//! The crate's parser over the plain tokenizer. The parser sets the modes on its way, document 02 tells them
//! from the text: shown are the inputs where the rows part, and counted is where they do not.

use crate::cut::smaller;
use common::kinds::IDS;
use generate::source::{source, Sort};
use tokens::{Mode, Row};

type Told = Result<(), String>;

/// Little enough that calls within calls end soon.
const FUEL: u32 = 200_000;

/// What the difference is, what stands before it, and the least behind that which shows it.
const PARTING: [(&str, &str, &str); 9] = [
    ("hex mode at item position", "", "$={00"),
    ("hex mode in a meta section", "rule a{meta:", "$={00"),
    ("hex mode in a condition", "rule a{condition:", "$={00"),
    ("hex mode behind a pattern that failed", "rule a{strings:$a{", "$={00"),
    ("hex mode within a hex pattern that failed", "rule a{strings:$a={", "$={00"),
    ("jump mode where a hex pattern begins", "rule a{strings:$a={", "[00"),
    ("jump mode where an alternative begins", "rule a{strings:$a={(", "[00"),
    ("jump mode within a jump", "rule a{strings:$a={00[", "[00"),
    ("jump mode within a hex pattern that failed", "rule a{strings:$a={-", "[]00"),
];

/// Accepted files in which hex mode is left before the closing brace: a comment within a jump ends jump mode,
/// and the hyphen behind it hex mode; a comment that is not UTF-8 ends hex mode. The parser enters jump mode
/// behind the next bracket all the same, and so does the text.
const ACCEPTED: [&[u8]; 4] = [
    b"rule a{strings:$={00[/**/-][-]00}condition:a}",
    b"rule a { strings: $a = { 01 [ 2 /* to */ - 4 ] [6] 03 } condition: $a }",
    b"rule a { strings: $a = { 01 [ //\n 2 - 44 ] [6] [ /* */ - ] [8] 03 } condition: $a }",
    b"rule a { strings: $a = { 01 /*\xFF*/ [2] 03 } condition: $a }",
];

/// The same as people would write them.
const WRITTEN: [&str; 4] = [
    "rule a { condition: $a = { 01 } }",
    "$a = { 01 02 }",
    "rule a { strings: $a { 01 } $b = { 02 } condition: $a }",
    "rule a { strings: $a = { [2] 01 } condition: $a }",
];

/// How the modes part.
#[derive(Clone, Copy, Debug, PartialEq, Eq)]
enum Way {
    /// The text enters hex mode and the parser does not.
    Hex,
    /// The text enters jump mode and the parser does not.
    Jump,
}

/// The first row that differs, on either side.
struct Parting {
    way: Way,
    rust: Row,
    text: Row,
}

/// Reads a source both ways: whether the parser accepts it, and where the rows part, if they do.
fn both(source: &[u8], fuel: u32) -> Result<(bool, Option<Parting>), String> {
    let rust = oracle::steered(source, fuel);
    let text = tokens::with_modes(source);
    if !rust.out_of_fuel && rust.rows.last().map(|r| r.0 .2) != text.last().map(|r| r.0 .2) {
        return Err("the parser leaves rows".to_string());
    }
    let differ = rust.rows.iter().zip(&text).position(|(r, t)| r.0 != t.0);
    let Some(at) = differ else { return Ok((rust.accepted, None)) };
    // The modes may part earlier, at rows that both cut alike, but not later.
    let first = (0..=at).find(|i| rust.rows[*i].1 != text[*i].1).ok_or("one mode and two rows")?;
    let way = match (rust.rows[first].1, text[first].1) {
        (_, Mode::Jump) => Way::Jump,
        (Mode::Normal, _) => Way::Hex,
        modes => return Err(format!("no known way to part: {modes:?}")),
    };
    Ok((rust.accepted, Some(Parting { way, rust: rust.rows[at].0, text: text[at].0 })))
}

fn parts(source: &[u8]) -> bool {
    matches!(both(source, FUEL), Ok((_, Some(_))))
}

pub fn tell() -> Told {
    for (title, before, behind) in PARTING {
        println!("{title}, which the parser does not enter there");
        let joined = |rest: &[u8]| [before.as_bytes(), rest].concat();
        least(behind, |rest| parts(&joined(rest)))?;
        show(&joined(behind.as_bytes()))?;
    }
    ACCEPTED.iter().try_for_each(|source| alike(source))?;
    println!("As people would write them");
    WRITTEN.iter().try_for_each(|source| show(source.as_bytes()))
}

/// That the text shows a difference, and that it does not with fewer bytes.
fn least(text: &str, shows: impl Fn(&[u8]) -> bool) -> Told {
    if !shows(text.as_bytes()) {
        return Err(format!("{text}: no difference any more"));
    }
    let least = smaller(text.as_bytes(), shows);
    if least != text.as_bytes() {
        return Err(format!("{text}: {} is shorter", least.escape_ascii()));
    }
    Ok(())
}

/// That the parser accepts the source, and that it is cut the same both ways.
fn alike(source: &[u8]) -> Told {
    match both(source, FUEL)? {
        (true, None) => Ok(()),
        (accepts, _) => {
            Err(format!("accepted: {accepts}; cut otherwise, or not accepted: {}", source.escape_ascii()))
        }
    }
}

/// Prints the first row that differs, on both sides.
fn show(source: &[u8]) -> Told {
    let named = |(id, start, end): Row| format!("{} {start}..{end}", IDS[id as usize]);
    let (_, parting) = both(source, FUEL)?;
    let Parting { rust, text, .. } = parting.ok_or("no difference any more")?;
    println!("  `{}`\n    here {}, the Rust {}", source.escape_ascii(), named(text), named(rust));
    Ok(())
}

/// Generated sources: what the parser accepts is cut the same both ways.
pub fn count(count: u64, seed: u64) -> Told {
    println!("sort      sources   accepted  same rows | no hex mode  no jump mode");
    for sort in [Sort::Rules, Sort::Faulty, Sort::Mutant] {
        let sources = count / 3;
        let (mut accepted, mut ways) = (0, [0; 2]);
        for n in 0..sources {
            let text = source(sort, seed, n);
            let told = |e: &str| format!("{sort:?} {seed} {n}: {e}\n{}", text.escape_ascii());
            let (accepts, parting) = both(&text, FUEL).map_err(|e| told(&e))?;
            accepted += u64::from(accepts);
            let Some(Parting { way, .. }) = parting else { continue };
            ways[way as usize] += 1;
            if accepts {
                return Err(told("accepted, and cut otherwise"));
            }
        }
        let [hex, jump] = ways;
        let same = sources - hex - jump;
        let sort = format!("{sort:?}");
        println!("{sort:<8}{sources:>9} {accepted:>10} {same:>10} | {hex:>11} {jump:>13}");
    }
    stopped(seed)
}

/// A reading that runs out of fuel has taken the rows that it would have taken with more.
fn stopped(seed: u64) -> Told {
    let mut readings = 0;
    for n in 0..400 {
        let text = source(Sort::Rules, seed, n);
        if parts(&text) {
            continue;
        }
        for fuel in 0..150 {
            readings += 1;
            if both(&text, fuel)?.1.is_some() {
                return Err(format!("with fuel {fuel} cut otherwise: {}", text.escape_ascii()));
            }
        }
    }
    println!("{readings} readings with fuel 0 to 149: the rows taken are cut the same");
    Ok(())
}
