//! Times of the crate and of ours on the same rows: see README.md.

mod inputs;
mod plot;
mod sides;
mod texts;

use common::Question;
use generate::Sort;
use sides::{check, Crate, Ours};
use std::time::Duration;
use std::{env, fs, thread};

const USAGE: &str = "bench times SVG | bench ours ROWS COUNT | bench stack KB LEVELS WORDS | \
    bench folder FOLDER COUNT | bench texts FOLDER";

const HEAD: &str = "| input | files | rows | events | ms crate: best | median | ms ours: best | median | \
    times the crate's speed |\n|---|---|---|---|---|---|---|---|---|";

fn main() {
    // The Rust goes down one call per node.
    thread::Builder::new().stack_size(1 << 30).spawn(work).unwrap().join().unwrap();
}

fn work() {
    let args: Vec<String> = env::args().skip(1).collect();
    let words: Vec<&str> = args.iter().map(String::as_str).collect();
    match words[..] {
        ["times", svg] => times(svg),
        // For a profiler: ours alone on the realistic file, again and again.
        ["ours", rows, count] => {
            let file = inputs::realistic(rows.parse().expect("rows"));
            let mut ours = Ours::new();
            for _ in 0..count.parse::<u32>().expect("count") {
                ours.read(&file);
            }
        }
        // Whether a thread with so much stack reads words that open nodes, so many times in a condition.
        ["stack", kb, levels, words] => {
            let file = inputs::nested(&format!("{words} "), "1 ", "", levels.parse().expect("levels"));
            let size = kb.parse::<usize>().expect("KB") << 10;
            let reading = move || {
                let mut ours = Ours::new();
                ours.read(&file);
                ours.answer
            };
            let thread = thread::Builder::new().stack_size(size).spawn(reading).unwrap();
            let [outcome, _, events, _, left] = thread.join().unwrap();
            println!("outcome {outcome}, {events} events, {left} fuel left");
        }
        ["folder", folder, count] => texts::write(folder, count.parse().expect("count")),
        ["texts", folder] => texts::time(folder),
        _ => eprintln!("{USAGE}"),
    }
}

fn times(svg: &str) {
    let mut sides = (Crate::new(), Ours::new());
    println!("{HEAD}");
    let mut row = |name: &str, files: &[Question]| measure(name, files, &mut sides);
    row("realistic rules", &[inputs::realistic(60_000)]);
    row("small files", &inputs::small(Sort::File, 4_000));
    row("small files with faults", &inputs::small(Sort::Mutant, 4_000));
    for levels in [100, 200] {
        row(&format!("{levels} parentheses"), &[inputs::nested("( ", "true ", ") ", levels)]);
    }
    for levels in [150, 300] {
        row(&format!("{levels} parentheses, none closed"), &[inputs::unclosed(levels)]);
    }
    for levels in [4, 6, 8] {
        row(&format!("{levels} calls within each other"), &[inputs::nested("f ( ", "1 ", ") ", levels)]);
    }
    row("one condition", &[inputs::long_condition(15_000)]);
    row("one strings section", &[inputs::long_strings(12_000)]);
    row("junk", &[inputs::junk(60_000)]);
    let whole = inputs::realistic(65_536);
    let mut growth = Vec::new();
    for rows in (0..7).map(|i| 1_024 << i) {
        growth.push((rows, row("realistic rules, cut", &[inputs::cut(&whole, rows)])));
    }
    fs::write(svg, plot::growth(&growth)).unwrap();
}

/// Best times of the crate and of ours.
pub type Best = (Duration, Duration);

/// The sides take turns, so that both see the same of what else the machine does.
fn measure(name: &str, files: &[Question], (other, ours): &mut (Crate, Ours)) -> Best {
    files.iter().for_each(|file| check(file, ours));
    let events: usize = files.iter().map(|file| ours.read(file).1.len() / common::EVENT).sum();
    let mut once = || {
        let crates: Duration = files.iter().map(|file| other.read(file)).sum();
        let mine: Duration = files.iter().map(|file| ours.read(file).0).sum();
        (crates, mine)
    };
    let warm = once();
    let turns = (3_000_000_000 / (warm.0 + warm.1).as_nanos().max(1)).clamp(7, 301);
    let (mut crates, mut mine): (Vec<_>, Vec<_>) = (0..turns).map(|_| once()).unzip();
    crates.sort();
    mine.sort();
    let rows: usize = files.iter().map(|file| file.ids.len()).sum();
    let speed = crates[0].as_secs_f64() / mine[0].as_secs_f64();
    let figures =
        [crates[0], median(&crates), mine[0], median(&mine)].map(|t| format!("{:.3}", 1e3 * t.as_secs_f64()));
    println!("| {name} | {} | {rows} | {events} | {} | {speed:.2} |", files.len(), figures.join(" | "));
    (crates[0], mine[0])
}

pub fn median(sorted: &[Duration]) -> Duration {
    sorted[sorted.len() / 2]
}
