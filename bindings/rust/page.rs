// For build scripts: the tables of docs/KINDS.md, which is the only place that says the numbers.

use std::fs;
use std::path::PathBuf;

/// The page's text: the page named in STABLEGLOW_KINDS, or the one at this path from the package.
pub fn read(from_package: &str) -> String {
    let here = PathBuf::from(std::env::var_os("CARGO_MANIFEST_DIR").unwrap());
    let page =
        std::env::var_os("STABLEGLOW_KINDS").map(PathBuf::from).unwrap_or_else(|| here.join(from_package));
    println!("cargo:rerun-if-env-changed=STABLEGLOW_KINDS");
    println!("cargo:rerun-if-changed={}", page.display());
    fs::read_to_string(&page).unwrap_or_else(|e| panic!("{}: {e}", page.display()))
}

/// The cells of the table under a heading; the numbers must stand in order from 0.
pub fn rows(text: &str, heading: &str) -> Vec<Vec<String>> {
    let title = format!("## {heading}");
    let part = text.lines().skip_while(|l| *l != title).skip(1).take_while(|l| !l.starts_with("## "));
    let cells = part.filter(|l| l.starts_with("| ") && !l.starts_with("| number"));
    let rows: Vec<Vec<String>> =
        cells.map(|l| l.trim_matches('|').split('|').map(|c| c.trim().to_string()).collect()).collect();
    for (i, row) in rows.iter().enumerate() {
        assert_eq!(row[0], i.to_string(), "{heading} out of order");
    }
    assert!(!rows.is_empty(), "no table under {heading}");
    rows
}

/// A row's spelling as a constant's name.
pub fn constant(row: &[String]) -> String {
    row[1].replace(' ', "_").to_uppercase()
}
