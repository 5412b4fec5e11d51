//! From rule text to merged events, on files that other tools take too.

use crate::median;
use crate::sides::{cut, Ours};
use generate::rng::Rng;
use std::fmt::Write;
use std::path::Path;
use std::time::Duration;
use std::{fs, iter};

const PATTERNS: [&str; 8] = [
    "\"http://example.com/a.php\" ascii wide nocase",
    "\"cmd.exe /c \\\"del %TEMP%\\\\x\\\"\" fullword",
    "\"This program cannot be run\" xor(1-255)",
    "\"secret\" base64",
    "/user(name)?=[a-z0-9_]{4,16}&pass=/i",
    "/\\\\AppData\\\\[^\\\\]{3,9}\\.(exe|dll)/",
    "{ 4D 5A ?? 00 [4-8] 50 45 ( 00 | 01 02 ) 4C 01 }",
    "{ E8 ?? ?? ?? ?? 83 C4 0? // the call\n    89 45 [2] FF 75 }",
];

const CONDITIONS: [&str; 6] = [
    "uint16(0) == 0x5A4D and filesize < 2MB and any of them",
    "all of them",
    "#p0 > 3 or @p0[1] < 0x400 or any of ($p*)",
    "for any of them : ( $ in (0..filesize \\ 2) )",
    "for all i in (1..#p0) : ( @p0[i] % 16 == 0 ) and 1 of them",
    "not ($p0 at 0) and (filesize >= 1KB or uint32be(4) & 0xFF == 7) and any of them",
];

/// A file of some rules. Every name is new and every pattern is used, as other tools want it.
fn file(number: usize) -> String {
    let rng = &mut Rng::new(1, number as u64);
    let mut out = format!("/*\n * File {number}.\n */\n\n");
    for rule in 0..1 + rng.below(12) {
        let tags = rng.pick(&["", " : malware", " : tool windows"]);
        writeln!(out, "rule r{number}_{rule}{tags}\n{{\n  meta:\n    author = \"someone\"").unwrap();
        writeln!(out, "    score = {}\n    checked = true\n  strings:", rng.below(100)).unwrap();
        for pattern in 0..1 + rng.below(9) {
            writeln!(out, "    $p{pattern} = {}", rng.pick(&PATTERNS)).unwrap();
        }
        writeln!(out, "  condition:\n    {}\n}}\n", rng.pick(&CONDITIONS)).unwrap();
    }
    out
}

pub fn write(folder: &str, count: usize) {
    fs::create_dir_all(folder).unwrap();
    for number in 0..count {
        fs::write(Path::new(folder).join(format!("{number}.yar")), file(number)).unwrap();
    }
}

/// Cutting, reading and merging every file of a folder, some times over. None may have an error.
pub fn time(folder: &str) {
    let paths = fs::read_dir(folder).unwrap().map(|entry| entry.unwrap().path());
    let rules = paths.filter(|path| path.extension().is_some_and(|e| e == "yar"));
    let files: Vec<Vec<u8>> = rules.map(|path| fs::read(path).unwrap()).collect();
    let mut ours = Ours::new();
    let mut rows = 0;
    let mut once = || {
        rows = 0;
        let one = |file: &Vec<u8>| {
            let (cutting, question) = cut(file);
            rows += question.ids.len();
            let reading = ours.read(&question).0;
            let [outcome, _, _, errors, _] = ours.answer;
            assert_eq!((outcome, errors), (0, 0), "a file has errors");
            (cutting, cutting + reading)
        };
        files.iter().map(one).fold((Duration::ZERO, Duration::ZERO), |(a, b), (c, d)| (a + c, b + d))
    };
    let (mut cutting, mut whole): (Vec<_>, Vec<_>) = iter::repeat_with(&mut once).take(31).unzip();
    cutting.sort();
    whole.sort();
    let bytes: usize = files.iter().map(Vec::len).sum();
    let ms = |t: Duration| 1e3 * t.as_secs_f64();
    println!("{} files, {bytes} bytes, {rows} rows", files.len());
    let (best, mid) = (ms(whole[0]), ms(median(&whole)));
    println!("ours, in one process: best {best:.1} ms, median {mid:.1}; cutting alone {:.1}", ms(cutting[0]));
}
