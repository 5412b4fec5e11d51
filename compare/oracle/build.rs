//! Lays the Rust's four files out in the target directory by copies, byte for byte as they are, with our
//! probe where the parser declares `mod tests;`, and writes the lines that declare the modules.

use std::path::{Path, PathBuf};
use std::{env, fs};

const FILES: [&str; 4] =
    ["parser/mod.rs", "parser/token_stream.rs", "cst/syntax_stream.rs", "cst/error_merger.rs"];

fn main() {
    let here = PathBuf::from(env::var_os("CARGO_MANIFEST_DIR").unwrap());
    let given = env::var_os("STABLEGLOW_RUST").map(PathBuf::from);
    let text = given.unwrap_or_else(|| here.join("../../../shared/docs/src")).join("src");
    let out = PathBuf::from(env::var_os("OUT_DIR").unwrap());
    println!("cargo:rerun-if-env-changed=STABLEGLOW_RUST");
    for file in FILES {
        lay(&text.join(file), &out.join(file));
    }
    lay(&here.join("src/probe.rs"), &out.join("parser/tests.rs"));
    fs::write(out.join("modules.rs"), modules(&out)).unwrap();
    println!("cargo:rustc-cfg=test");
}

fn lay(from: &Path, to: &Path) {
    println!("cargo:rerun-if-changed={}", from.display());
    let from = from.canonicalize().unwrap_or_else(|e| panic!("{}: {e}", from.display()));
    fs::create_dir_all(to.parent().unwrap()).unwrap();
    let _ = fs::remove_file(to);
    fs::copy(from, to).unwrap();
}

/// The modules as the parser names them. Of the stream one function is for the crate's own tests alone.
fn modules(out: &Path) -> String {
    let module = |file: &str, name: &str| format!("#[path = {:?}]\npub mod {name};\n", out.join(file));
    let parser = module(FILES[0], "parser");
    let stream = module(FILES[2], "syntax_stream");
    let merger = module(FILES[3], "error_merger");
    let used = "pub use crate::stand_in::{CST, CSTStream, Event, SyntaxKind};\n";
    format!("{parser}pub mod cst {{\n{used}#[allow(dead_code)]\n{stream}{merger}}}\n")
}
