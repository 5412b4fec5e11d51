//! `oracle [--raw] [INPUT]`: the Rust's listing of the rows in document 01's input, from a file or standard
//! input. Ids are numbers or names. A source is looked for beside the input file.

use std::io::Read;
use std::path::{Path, PathBuf};
use std::{env, fs, io, process, thread};

fn main() {
    // The Rust goes down one call per node, without a limit.
    let reading = thread::Builder::new().stack_size(1 << 30).spawn(answer).unwrap();
    match reading.join().unwrap() {
        Ok(listing) => print!("{listing}"),
        Err(message) => {
            eprintln!("oracle: {message}");
            process::exit(1);
        }
    }
}

fn answer() -> Result<String, String> {
    let (options, files): (Vec<String>, Vec<String>) = env::args().skip(1).partition(|a| a.starts_with("--"));
    let place = files.first().map(PathBuf::from).unwrap_or_default();
    let mut input = Vec::new();
    let opened: io::Result<usize> = match files.first() {
        Some(file) => fs::File::open(file).and_then(|mut f| f.read_to_end(&mut input)),
        None => io::stdin().read_to_end(&mut input),
    };
    opened.map_err(|e| e.to_string())?;
    let lines = common::input::read(&input, true).map_err(|n| format!("line {n} does not read"))?;
    let name = String::from_utf8(lines.file.clone()).map_err(|e| e.to_string())?;
    let source = place.parent().unwrap_or(Path::new("")).join(name);
    let source = fs::read(&source).map_err(|e| format!("{}: {e}", source.display()))?;
    let reading = oracle::read(&lines.question(source, 0, 0));
    let raw = options.iter().any(|o| o == "--raw");
    let events = if raw { &reading.raw } else { &reading.merged };
    Ok(common::listing::listing(&reading, events))
}
