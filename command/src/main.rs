//! The command `stableglow`. All judging is the proved library's: what is here finds files, hands their bytes on, and
//! shows what the library says.

mod check;
mod json;
mod lines;
mod options;
mod sarif;
mod screen;
mod show;
mod text;
mod verdict;
mod walk;

use options::{Action, Asked, Options};
use screen::{Progress, Screen};
use std::io::{self, ErrorKind, Write};
use std::process::ExitCode;
use std::sync::mpsc;
use std::{env, thread};

/// Wrong use, and output that was closed: what a shell gives for a program that the signal of a closed pipe ended.
/// 0 would say that every file is accepted.
const WRONG: u8 = 64;
const CLOSED: u8 = 141;
const FAILED: u8 = 2;

fn main() -> ExitCode {
    let asked = match options::parse(env::args_os().skip(1)) {
        Asked::Run(asked) => asked,
        Asked::Help => return plain(include_str!("help.txt")),
        Asked::Version => return plain(concat!("stableglow ", env!("CARGO_PKG_VERSION"), "\n")),
        Asked::Wrong(words) => {
            let _ = writeln!(io::stderr(), "stableglow: {words}\n`stableglow --help` tells the use");
            return ExitCode::from(WRONG);
        }
    };
    let (progress, (held, over)) = (Progress::default(), mpsc::channel());
    let seen = progress.clone();
    // The reader goes down a call for each open node: its stack is our own, whatever the shell's limit is.
    let run = thread::Builder::new().stack_size(stableglow::STACK).spawn(move || {
        let _held = held;
        run(&asked, &mut Screen::new(seen))
    });
    match run {
        Ok(run) => {
            progress.watch(over);
            run.join().unwrap_or(ExitCode::from(FAILED))
        }
        Err(error) => failed(&error),
    }
}

fn run(asked: &Options, screen: &mut Screen) -> ExitCode {
    let done = match asked.action {
        Action::Check => check::check(asked, screen),
        Action::Names => check::names(asked, screen),
        Action::Outline | Action::Events | Action::Rows => show::show(asked, screen),
    };
    match done.and_then(|worst| screen.end().map(|()| worst)) {
        Ok(worst) => ExitCode::from(worst.exit()),
        Err(error) => failed(&error),
    }
}

fn plain(text: &str) -> ExitCode {
    match io::stdout().write_all(text.as_bytes()) {
        Ok(()) => ExitCode::SUCCESS,
        Err(error) => failed(&error),
    }
}

fn failed(error: &io::Error) -> ExitCode {
    if error.kind() == ErrorKind::BrokenPipe {
        return ExitCode::from(CLOSED);
    }
    let _ = writeln!(io::stderr(), "stableglow: {}", walk::words(error));
    ExitCode::from(FAILED)
}
