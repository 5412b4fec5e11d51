//! Links Stableglow: the archive that `bash tools/library` writes, or the one named in STABLEGLOW_LIB.
//! Writes the numbers of docs/KINDS.md as Rust.

mod page;

use std::fmt::Write;
use std::path::{Path, PathBuf};
use std::{env, fs};

fn main() {
    link();
    let text = page::read("../../docs/KINDS.md");
    let mut out = String::new();
    for (sort, heading) in [("Id", "Ids"), ("Kind", "Kinds"), ("Name", "Names")] {
        let rows = page::rows(&text, heading);
        let spellings: Vec<&str> = rows.iter().map(|row| row[1].as_str()).collect();
        writeln!(out, "const {}: &[&str] = &{spellings:?};", heading.to_uppercase()).unwrap();
        writeln!(out, "#[allow(missing_docs)]\nimpl {sort} {{").unwrap();
        for row in &rows {
            writeln!(out, "    pub const {}: {sort} = {sort}({});", page::constant(row), row[0]).unwrap();
        }
        writeln!(out, "}}").unwrap();
    }
    fs::write(Path::new(&env::var_os("OUT_DIR").unwrap()).join("numbers.rs"), out).unwrap();
}

fn link() {
    println!("cargo:rerun-if-env-changed=STABLEGLOW_LIB");
    let here = PathBuf::from(env::var_os("CARGO_MANIFEST_DIR").unwrap());
    let given = env::var_os("STABLEGLOW_LIB").map(PathBuf::from);
    let archive = given.unwrap_or_else(|| here.join("../../target/staticlib/libstableglow.a"));
    let archive = archive
        .canonicalize()
        .unwrap_or_else(|e| panic!("{}: {e}: `bash tools/library` writes it", archive.display()));
    let stem = archive.file_stem().unwrap().to_str().unwrap();
    let sort = if archive.extension().is_some_and(|e| e == "a") { "static" } else { "dylib" };
    println!("cargo:rerun-if-changed={}", archive.display());
    println!("cargo:rustc-link-search=native={}", archive.parent().unwrap().display());
    println!("cargo:rustc-link-lib={sort}={}", stem.strip_prefix("lib").unwrap());
}
