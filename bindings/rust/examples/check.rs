//! Reads a rule file and tells its errors and its rules: `cargo run --example check -- FILE`.

use stableglow::{check, message, rules, Options, Outcome};
use std::{env, fs, process, thread};

fn run() -> Result<i32, Box<dyn std::error::Error + Send + Sync>> {
    let path = env::args().nth(1).ok_or("give a rule file")?;
    let source = fs::read(&path)?;
    let reading = check(&source, &Options::default())?;
    for error in &reading.errors {
        println!("{path}: {}..{}: {}", error.start, error.end, message(&source, error)?);
    }
    for rule in rules(&reading.events)? {
        let name = String::from_utf8_lossy(&source[rule.name_start as usize..rule.name_end as usize]);
        println!("{path}: rule {name}{}", if rule.damaged { ", damaged" } else { "" });
    }
    // An empty list of errors says nothing of a reading that was stopped.
    let told = match reading.outcome {
        Outcome::Done if reading.accepted() => "accepted",
        Outcome::Done => "with errors",
        Outcome::OutOfFuel => "stopped: out of fuel",
        Outcome::TooDeep => "stopped: too deep",
    };
    println!("{path}: {told}");
    Ok(i32::from(!reading.accepted()))
}

fn main() {
    let run = thread::Builder::new().stack_size(stableglow::STACK).spawn(run);
    let status = run.expect("a thread").join().expect("the reading");
    process::exit(status.unwrap_or_else(|error| {
        eprintln!("{error}");
        2
    }));
}
