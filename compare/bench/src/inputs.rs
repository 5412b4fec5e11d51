//! What is read: rows from the case generator, with the fuel that the Rust starts with.

use common::Question;
use generate::rng::Rng;
use generate::text::{self, Row};
use generate::{any_id, case, Sort};

const FUEL: u32 = 100_000_000;
const SEED: u64 = 1;

/// Generated rule files one after another, those that the PEG accepts, cut after some rows.
pub fn realistic(rows: usize) -> Question {
    let files = (0..).map(|n| case(Sort::File, SEED, n));
    let whole = files.filter(|q| model::peg::accepts(&q.ids, true));
    let all: Vec<Row> = whole.flat_map(|q| q.rows().unwrap()).take(rows).collect();
    Question::new(&all, FUEL)
}

/// Files of one sort as they come.
pub fn small(sort: Sort, count: u64) -> Vec<Question> {
    (0..count).map(|n| Question { fuel: FUEL, ..case(sort, SEED, n) }).collect()
}

/// A part within itself, in a condition.
pub fn nested(open: &str, middle: &str, close: &str, levels: usize) -> Question {
    let parts = [open.repeat(levels), middle.to_string(), close.repeat(levels)];
    words(&format!("rule a {{ condition : {} }}", parts.concat()))
}

/// One rule, all of whose rows but a few are one condition.
pub fn long_condition(terms: usize) -> Question {
    words(&format!("rule a {{ condition : true {} }}", "and $a at 1 ".repeat(terms)))
}

/// One rule with the given number of patterns.
pub fn long_strings(patterns: usize) -> Question {
    words(&format!(
        "rule a {{ strings : {} condition : true }}",
        "$a = \"evil\" ascii wide ".repeat(patterns)
    ))
}

/// Any ids in any order.
pub fn junk(rows: usize) -> Question {
    let mut rng = Rng::new(SEED, 0);
    let ids: Vec<u32> = (0..rows).map(|_| any_id(&mut rng)).collect();
    Question::new(&text::rows(&ids, 0, &mut rng), FUEL)
}

/// A rule whose condition never ends: opening parentheses only.
pub fn unclosed(levels: usize) -> Question {
    words(&format!("rule a {{ condition : {}", "( ".repeat(levels)))
}

fn words(line: &str) -> Question {
    let ids: Vec<u32> = line.split_whitespace().map(text::id_of).collect();
    Question::new(&text::rows(&ids, 0, &mut Rng::new(SEED, 0)), FUEL)
}

/// The first rows of a file.
pub fn cut(file: &Question, rows: usize) -> Question {
    Question::new(&file.rows().unwrap()[..rows], file.fuel)
}
