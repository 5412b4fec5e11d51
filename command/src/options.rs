//! What was asked for on the command line.

use std::ffi::{OsStr, OsString};
use std::path::PathBuf;

#[derive(Clone, Copy, Debug, PartialEq, Eq)]
pub enum Action {
    Check,
    Names,
    Outline,
    Events,
    Rows,
}

#[derive(Clone, Copy, Debug, PartialEq, Eq)]
pub enum Format {
    Text,
    Json,
    Sarif,
}

#[derive(Clone, Copy, Debug, PartialEq, Eq)]
pub enum Color {
    Auto,
    Always,
    Never,
}

#[derive(Clone, Debug, PartialEq, Eq)]
pub struct Options {
    pub action: Action,
    pub paths: Vec<PathBuf>,
    pub format: Format,
    pub color: Color,
    pub fuel: u32,
    pub depth: u32,
    pub merged: bool,
    pub quiet: bool,
}

#[derive(Debug, PartialEq, Eq)]
pub enum Asked {
    Run(Options),
    Help,
    Version,
    /// Wrong use, in words.
    Wrong(String),
}

pub fn parse(args: impl Iterator<Item = OsString>) -> Asked {
    read(args).unwrap_or_else(|asked| asked)
}

fn read(mut args: impl Iterator<Item = OsString>) -> Result<Asked, Asked> {
    let first = args.next().ok_or_else(|| wrong("a command is missing"))?;
    let action = match first.to_str() {
        Some("check") => Action::Check,
        Some("names") => Action::Names,
        Some("outline") => Action::Outline,
        Some("events") => Action::Events,
        Some("rows") => Action::Rows,
        Some("help" | "-h" | "--help") => return Err(Asked::Help),
        Some("-V" | "--version") => return Err(Asked::Version),
        _ => return Err(wrong(&format!("no command {first:?}"))),
    };
    let mut asked = Options {
        action,
        paths: Vec::new(),
        format: Format::Text,
        color: Color::Auto,
        fuel: stableglow::Options::default().fuel,
        depth: 2,
        merged: false,
        quiet: false,
    };
    while let Some(arg) = args.next() {
        if arg == "--" {
            asked.paths.extend(args.by_ref().map(PathBuf::from));
        } else if arg != "-" && arg.as_encoded_bytes().starts_with(b"-") {
            option(&mut asked, &arg, &mut args)?;
        } else {
            asked.paths.push(arg.into());
        }
    }
    fits(&asked)?;
    Ok(Asked::Run(asked))
}

/// One option, with its value behind an equals sign or in the next word.
fn option(asked: &mut Options, arg: &OsStr, rest: &mut impl Iterator<Item = OsString>) -> Result<(), Asked> {
    let text = arg.to_str().ok_or_else(|| wrong(&format!("no option {arg:?}")))?;
    let (name, given) = match text.split_once('=') {
        Some((name, value)) => (name, Some(value.to_string())),
        None => (text, None),
    };
    let unvalued = given.is_none();
    let mut value = || {
        let next = given.clone().or_else(|| rest.next()?.into_string().ok());
        next.ok_or_else(|| wrong(&format!("{name} wants a value")))
    };
    match name {
        "--format" => asked.format = one_of(name, &value()?, &FORMATS)?,
        "--color" => asked.color = one_of(name, &value()?, &COLORS)?,
        "--fuel" => asked.fuel = number(name, &value()?)?,
        "--depth" if asked.action == Action::Outline => asked.depth = number(name, &value()?)?,
        "--json" if unvalued => asked.format = Format::Json,
        "--merged" if unvalued && asked.action == Action::Events => asked.merged = true,
        "-q" | "--quiet" if unvalued && asked.action == Action::Check => asked.quiet = true,
        "-h" | "--help" if unvalued => return Err(Asked::Help),
        "-V" | "--version" if unvalued => return Err(Asked::Version),
        _ => return Err(wrong(&format!("no option {text} of this command"))),
    }
    Ok(())
}

const FORMATS: [(&str, Format); 3] =
    [("text", Format::Text), ("json", Format::Json), ("sarif", Format::Sarif)];
const COLORS: [(&str, Color); 3] =
    [("auto", Color::Auto), ("always", Color::Always), ("never", Color::Never)];

fn one_of<T: Copy>(name: &str, value: &str, table: &[(&str, T)]) -> Result<T, Asked> {
    let found = table.iter().find(|row| row.0 == value);
    let all: Vec<&str> = table.iter().map(|row| row.0).collect();
    found.map(|row| row.1).ok_or_else(|| wrong(&format!("{name} is one of {}, not {value}", all.join(", "))))
}

fn number(name: &str, value: &str) -> Result<u32, Asked> {
    value.parse().map_err(|_| wrong(&format!("{name} wants a number from 0 to {}, not {value}", u32::MAX)))
}

fn fits(asked: &Options) -> Result<(), Asked> {
    let many = matches!(asked.action, Action::Check | Action::Names);
    match asked.paths.len() {
        0 => Err(wrong(if many { "a path is missing" } else { "a file is missing" })),
        1 => Ok(()),
        _ if many => Ok(()),
        _ => Err(wrong("one file at a time")),
    }?;
    if asked.format == Format::Sarif && asked.action != Action::Check {
        return Err(wrong("sarif is a format of check"));
    }
    Ok(())
}

fn wrong(words: &str) -> Asked {
    Asked::Wrong(words.to_string())
}
