//! `model`: what the program writes for the input on standard input.

use std::ffi::OsStr;
use std::io::Read;
use std::os::unix::ffi::OsStrExt;

fn main() {
    let mut input = Vec::new();
    // Input that cannot be read is empty input.
    let _ = std::io::stdin().read_to_end(&mut input);
    print!("{}", model::program::answer(&input, |name| std::fs::read(OsStr::from_bytes(name)).ok()));
}
