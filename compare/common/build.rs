//! Writes the numbers of docs/KINDS.md as Rust, so that the page stays the only place that says them.

#[path = "../../bindings/rust/page.rs"]
mod page;

use page::{constant, rows};
use std::fmt::Write;
use std::path::Path;
use std::{env, fs};

fn main() {
    let text = page::read("../../docs/KINDS.md");
    let (ids, kinds, names) = (rows(&text, "Ids"), rows(&text, "Kinds"), rows(&text, "Names"));
    let mut out = String::new();
    constants(&mut out, "id", "IDS", &ids);
    constants(&mut out, "kind", "KINDS", &kinds);
    constants(&mut out, "name", "NAMES", &names);
    let descriptions = descriptions(&text);
    assert_eq!(descriptions.len(), names.len(), "a description for each name");
    writeln!(out, "/// What each name is called in a message.").unwrap();
    writeln!(out, "pub const DESCRIPTIONS: &[&str] = &{descriptions:?};").unwrap();
    macro_of(&mut out, &ids, &kinds, &descriptions);
    let place = Path::new(&env::var_os("OUT_DIR").unwrap()).join("kinds.rs");
    fs::write(place, out).unwrap();
}

/// The page's descriptions, by name. They stand as plain text, since one is the sign that parts cells.
fn descriptions(text: &str) -> Vec<String> {
    let part = text.lines().skip_while(|l| *l != "## Descriptions").filter(|l| l.starts_with("| "));
    let last = |l: &str| l.strip_suffix(" |").unwrap().splitn(4, " | ").nth(2).unwrap().to_string();
    part.map(last).collect()
}

fn constants(out: &mut String, module: &str, list: &str, rows: &[Vec<String>]) {
    let all: Vec<&str> = rows.iter().map(|r| r[1].as_str()).collect();
    writeln!(out, "pub const {list}: &[&str] = &{all:?};").unwrap();
    writeln!(out, "pub mod {module} {{").unwrap();
    for row in rows {
        writeln!(out, "    pub const {}: u32 = {};", constant(row), row[0]).unwrap();
    }
    writeln!(out, "}}").unwrap();
}

/// A macro that hands the page to another one: enums cannot be made of constants.
fn macro_of(out: &mut String, ids: &[Vec<String>], kinds: &[Vec<String>], descriptions: &[String]) {
    writeln!(out, "#[macro_export]\nmacro_rules! page {{ ($then:ident) => {{ $then! {{ ids {{").unwrap();
    for (id, description) in ids.iter().zip(descriptions) {
        writeln!(out, "{} {} {description:?},", id[1], id[0]).unwrap();
    }
    writeln!(out, "}} kinds {{").unwrap();
    for kind in kinds.iter().filter(|k| k[2] != "-") {
        let id: usize = kind[2].parse().unwrap();
        writeln!(out, "{} {} {},", kind[1], kind[0], ids[id][1]).unwrap();
    }
    writeln!(out, "}} nodes {{").unwrap();
    for kind in kinds.iter().filter(|k| k[2] == "-") {
        writeln!(out, "{} {},", kind[1], kind[0]).unwrap();
    }
    writeln!(out, "}} }} }} }}").unwrap();
    let of: Vec<String> = kinds.iter().map(|k| k[2].replace('-', "u32::MAX")).collect();
    writeln!(out, "/// The id of each kind; a node has none.").unwrap();
    writeln!(out, "pub const ID_OF_KIND: &[u32] = &[{}];", of.join(", ")).unwrap();
}
