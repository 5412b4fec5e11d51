//! The command as it is used: what it writes and its exit status. Everything expected was written by hand, from
//! document 01's small files, the requests, and the help.

use std::ffi::OsStr;
use std::fs::{self, File};
use std::io::{self, Write};
use std::os::unix::ffi::OsStrExt;
use std::os::unix::fs::{symlink, PermissionsExt};
use std::os::unix::process::CommandExt;
use std::path::{Path, PathBuf};
use std::process::{Command, Stdio};
use std::sync::atomic::{AtomicU32, Ordering};
use std::{env, process};

const R: &str = "rule a{condition:true}";

/// A folder of its own for each test, in which the command is run.
struct Folder(PathBuf);

static FOLDERS: AtomicU32 = AtomicU32::new(0);

impl Folder {
    fn new() -> Self {
        let number = FOLDERS.fetch_add(1, Ordering::Relaxed);
        let path = env::temp_dir().join(format!("stableglow-test-{}-{number}", process::id()));
        fs::create_dir(&path).unwrap();
        fs::set_permissions(&path, fs::Permissions::from_mode(0o755)).unwrap();
        Self(path)
    }

    fn with(self, name: &str, bytes: impl AsRef<[u8]>) -> Self {
        let path = self.0.join(name);
        fs::create_dir_all(path.parent().unwrap()).unwrap();
        fs::write(path, bytes).unwrap();
        self
    }

    fn command(&self, words: &str) -> Command {
        let mut command = at(Path::new(env!("CARGO_BIN_EXE_stableglow")));
        command.args(words.split_whitespace()).current_dir(&self.0);
        command
    }

    fn run(&self, words: &str) -> Ran {
        Ran::of(&mut self.command(words))
    }

    /// Status and output, and nothing on standard error.
    fn told(&self, words: &str) -> (i32, String) {
        let ran = self.run(words);
        assert_eq!(ran.err, "", "{words}");
        (ran.status, ran.out)
    }
}

impl Drop for Folder {
    fn drop(&mut self) {
        let _ = fs::remove_dir_all(&self.0);
    }
}

/// A program of ours, by way of the emulator that STABLEGLOW_RUN names where the processor is another.
fn at(program: &Path) -> Command {
    let runner = env::var("STABLEGLOW_RUN").unwrap_or_default();
    let mut words = runner.split_whitespace();
    match words.next() {
        None => Command::new(program),
        Some(first) => {
            let mut command = Command::new(first);
            command.args(words).arg(program);
            command
        }
    }
}

#[derive(Debug, PartialEq, Eq)]
struct Ran {
    status: i32,
    out: String,
    err: String,
}

impl Ran {
    fn of(command: &mut Command) -> Self {
        let done = command.env_remove("NO_COLOR").stdin(Stdio::null()).output().unwrap();
        let text = |bytes| String::from_utf8(bytes).unwrap();
        Self { status: done.status.code().unwrap(), out: text(done.stdout), err: text(done.stderr) }
    }
}

fn summary(counts: [u32; 5]) -> String {
    let files: u32 = counts.iter().sum();
    let s = if files == 1 { "" } else { "s" };
    let [accepted, errors, stopped, refused, unread] = counts;
    format!(
        "{files} file{s}: {accepted} accepted, {errors} with errors, {stopped} stopped, {refused} refused, \
         {unread} not read\n"
    )
}

#[test]
fn an_accepted_file() {
    let folder = Folder::new().with("a.yar", R);
    let line = format!("a.yar: accepted\n{}", summary([1, 0, 0, 0, 0]));
    assert_eq!(folder.told("check a.yar"), (0, line));
    assert_eq!(folder.told("check -q a.yar"), (0, summary([1, 0, 0, 0, 0])));
    assert_eq!(folder.told("check --fuel 5 a.yar").0, 0);
    assert_eq!(Folder::new().with("empty.yar", "").told("check empty.yar").0, 0);
}

#[test]
fn a_file_with_errors() {
    let folder =
        Folder::new().with("d.yar", format!("@ {R}")).with("e.yar", "rule a\n{\n\tcondition: true\n");
    let told = "d.yar:1:1: error: expecting import statement or rule definition
    1 | @ rule a{condition:true}
      | ^
e.yar:4:1: error: expecting operator or `}`, found end of file
    4 | 
      | ^
";
    let expected = (1, told.to_string() + &summary([0, 2, 0, 0, 0]));
    assert_eq!(folder.told("check d.yar e.yar"), expected);
    assert_eq!(
        folder.told("check --quiet ."),
        (1, expected.1.replace("d.yar", "./d.yar").replace("e.yar", "./e.yar"))
    );
}

/// P3 and P5, and more open nodes than there may be.
#[test]
fn a_file_that_stops() {
    let folder =
        Folder::new().with("r.yar", R).with("deep.yar", format!("rule a{{condition:\n{}", "(".repeat(2_000)));
    let told = "r.yar:1:8: error: expecting `meta` or `strings`, found `condition`
    1 | rule a{condition:true}
      |        ^^^^^^^^^
r.yar:1:18: stopped: out of fuel; what follows was not read, and an error there may come of that
    1 | rule a{condition:true}
      |                  ^
";
    assert_eq!(folder.told("check r.yar --fuel 4"), (2, told.to_string() + &summary([0, 0, 1, 0, 0])));
    let told = "r.yar:1:1: stopped: out of fuel; what follows was not read
    1 | rule a{condition:true}
      | ^
";
    assert_eq!(folder.told("check --fuel=0 r.yar"), (2, told.to_string() + &summary([0, 0, 1, 0, 0])));
    let (status, out) = folder.told("check deep.yar");
    assert!(out.contains(": stopped: too deep; what follows was not read"), "{out}");
    assert!(!out.contains("deep.yar: accepted") && out.ends_with(&summary([0, 0, 1, 0, 0])), "{out}");
    assert_eq!(status, 2);
}

#[test]
fn a_file_that_is_refused() {
    let folder = Folder::new()
        .with("bytes.yar", " ".repeat(1_048_576))
        .with("more.yar", " ".repeat(1_048_577))
        .with("rows.yar", "{".repeat(65_537));
    let told = "bytes.yar: accepted
more.yar: refused: over 1,048,576 bytes
rows.yar: refused: 65,537 rows of tokens, over 65,536
";
    let expected = (2, told.to_string() + &summary([1, 0, 0, 2, 0]));
    assert_eq!(folder.told("check bytes.yar more.yar rows.yar"), expected);
    // It never ends, and is read as far as the library looks.
    let (status, out) = folder.told("check /dev/zero");
    assert_eq!(
        (status, out),
        (2, format!("/dev/zero: refused: over 1,048,576 bytes\n{}", summary([0, 0, 0, 1, 0])))
    );
}

#[test]
fn a_bad_path_does_not_stop_the_others() {
    let folder = Folder::new().with("a.yar", R).with("empty/notes.txt", "x");
    let told = "nowhere.yar: not read: No such file or directory
a.yar/x: not read: Not a directory
empty: not read: no file in it ends in .yar, .yara, .rule or .rules
a.yar: accepted
";
    let expected = (2, told.to_string() + &summary([1, 0, 0, 0, 3]));
    assert_eq!(folder.told("check nowhere.yar a.yar/x empty a.yar"), expected);
    for action in ["rows", "events", "outline"] {
        let ran = folder.run(&format!("{action} empty"));
        let note = "stableglow: empty: not read: Is a directory\n".to_string();
        assert_eq!(ran, Ran { status: 2, out: String::new(), err: note });
        assert_eq!(folder.run(&format!("{action} nowhere")).status, 2);
    }
    let note = "stableglow: nowhere: not read: No such file or directory\n".to_string();
    let list = "a.yar:1:6: a (0 meta, 0 patterns, 0 tags)\n".to_string();
    assert_eq!(folder.run("names nowhere a.yar"), Ran { status: 2, out: list, err: note });
}

/// As nobody, where the tests are run by one whom permissions do not bind.
#[test]
fn a_file_that_may_not_be_read() {
    let folder = Folder::new().with("a.yar", R).with("shut.yar", R).with("shut/b.yar", R);
    let program = folder.0.join("stableglow");
    fs::copy(env!("CARGO_BIN_EXE_stableglow"), &program).unwrap();
    for shut in ["shut.yar", "shut"] {
        fs::set_permissions(folder.0.join(shut), fs::Permissions::from_mode(0o000)).unwrap();
    }
    let mut command = at(&program);
    command.args(["check", "."]).current_dir(&folder.0);
    if File::open(folder.0.join("shut.yar")).is_ok() {
        command.uid(65_534).gid(65_534);
    }
    let told = "./a.yar: accepted
./shut: not read: Permission denied
./shut.yar: not read: Permission denied
";
    let ran = Ran::of(&mut command);
    fs::set_permissions(folder.0.join("shut"), fs::Permissions::from_mode(0o755)).unwrap();
    assert_eq!(ran, Ran { status: 2, out: told.to_string() + &summary([1, 0, 0, 0, 2]), err: String::new() });
}

/// One that opens and does not read.
#[test]
fn a_file_that_fails_while_it_is_read() {
    let told = format!("/proc/self/mem: not read: Input/output error\n{}", summary([0, 0, 0, 0, 1]));
    assert_eq!(Folder::new().told("check /proc/self/mem"), (2, told));
}

#[test]
fn a_folder_is_gone_through_in_order() {
    let folder = Folder::new();
    let folder = ["b.yar", "a/z.yara", "a/y/x.rule", "c.rules", "d.txt", "e.YAR", "folder.yar/f.yar", "yar"]
        .iter()
        .fold(folder, |folder, name| folder.with(name, R));
    symlink("..", folder.0.join("a/loop")).unwrap();
    symlink("../b.yar", folder.0.join("a/link.yar")).unwrap();
    symlink("nowhere", folder.0.join("a/broken.yar")).unwrap();
    assert!(Command::new("mkfifo").arg(folder.0.join("pipe.yar")).status().unwrap().success());
    let told = "./a/broken.yar: not read: No such file or directory
./a/link.yar: accepted
./a/y/x.rule: accepted
./a/z.yara: accepted
./b.yar: accepted
./c.rules: accepted
./folder.yar/f.yar: accepted
./pipe.yar: not read: is no regular file
";
    assert_eq!(folder.told("check ."), (2, told.to_string() + &summary([6, 0, 0, 0, 2])));
    // Named, a file is read whatever its ending.
    assert_eq!(folder.told("check -q d.txt e.YAR"), (0, summary([2, 0, 0, 0, 0])));
}

#[test]
fn a_thousand_files() {
    let folder =
        (0..1_000).fold(Folder::new(), |folder, i| folder.with(&format!("{:02}/{i:03}.yar", i / 50), R));
    let folder = folder.with("07/370.yar", format!("@ {R}"));
    let (status, out) = folder.told("check .");
    assert_eq!((status, out.lines().count()), (1, 999 + 3 + 1));
    let names: Vec<&str> = out.lines().filter_map(|line| line.strip_suffix(": accepted")).collect();
    assert!(names.is_sorted() && names.len() == 999);
    assert!(
        out.ends_with("1,000 files: 999 accepted, 1 with errors, 0 stopped, 0 refused, 0 not read\n"),
        "{out}"
    );
}

/// 0 would say that every file is accepted.
#[test]
fn closed_output_ends_quietly() {
    let folder = Folder::new().with("a.yar", R);
    for words in ["check a.yar", "check --json a.yar", "names a.yar", "rows a.yar", "events a.yar", "--help"]
    {
        // Nobody reads, from the beginning.
        let (reader, writer) = io::pipe().unwrap();
        drop(reader);
        let done = folder.command(words).stdout(writer).stderr(Stdio::piped()).output().unwrap();
        assert_eq!((done.status.code(), &done.stderr[..]), (Some(141), &b""[..]), "{words}");
    }
    let full = File::options().write(true).open("/dev/full").unwrap();
    let done = folder.command("check a.yar").stdout(full).stderr(Stdio::piped()).output().unwrap();
    assert_eq!(done.status.code(), Some(2));
    assert_eq!(done.stderr, b"stableglow: No space left on device\n");
}

#[test]
fn standard_input() {
    let folder = Folder::new();
    let mut child = folder.command("check -").stdin(Stdio::piped()).stdout(Stdio::piped()).spawn().unwrap();
    child.stdin.take().unwrap().write_all(b"@").unwrap();
    let done = child.wait_with_output().unwrap();
    assert_eq!(done.status.code(), Some(1));
    let told = "<stdin>:1:1: error: expecting import statement or rule definition\n    1 | @\n      | ^\n";
    assert_eq!(String::from_utf8(done.stdout).unwrap(), told.to_string() + &summary([0, 1, 0, 0, 0]));
}

const TWO: &str = "rule a{strings:$a=1 condition:true}\nrule é_b{condition:true}\nrule b:t{meta:m=1 strings:$b=\"c\" condition:$b}";

#[test]
fn names() {
    let folder = Folder::new().with("two.yar", TWO.replace("é_", "")).with("a.yar", R);
    let told = "a.yar:1:6: a (0 meta, 0 patterns, 0 tags)
two.yar:1:6: a (0 meta, 0 patterns, 0 tags, damaged)
two.yar:2:6: b (0 meta, 0 patterns, 0 tags)
two.yar:3:6: b (1 meta, 1 pattern, 1 tag)
";
    let note = "stableglow: two.yar: 1 error; `stableglow check` tells it\n";
    let ran = folder.run("names a.yar two.yar");
    assert_eq!(ran, Ran { status: 1, out: told.to_string(), err: note.to_string() });
    let told = r#"{"path":"a.yar","status":"accepted","rules":[{"name":"a","line":1,"column":6,"start":0,"end":22,"meta":0,"patterns":0,"tags":0,"damaged":false}]}
{"path":"nowhere","status":"unread","reason":"No such file or directory","rules":[]}
"#;
    assert_eq!(folder.told("names --json a.yar nowhere"), (2, told.to_string()));
    let (status, out) = folder.told("names --format json two.yar");
    assert_eq!(status, 1);
    assert!(out.contains(r#"{"name":"a","line":1,"column":6,"start":0,"end":35,"meta":0,"patterns":0,"tags":0,"damaged":true}"#), "{out}");
    let ran = folder.run("names --fuel 4 a.yar");
    assert_eq!(ran.status, 2);
    assert!(
        ran.err.starts_with("stableglow: a.yar: stopped: out of fuel; rules may be missing\n"),
        "{}",
        ran.err
    );
}

#[test]
fn outline() {
    let folder = Folder::new().with("d.yar", format!("@\n{R}"));
    let told = "ERROR 1:1 0..1\nRULE_DECL 2:1 2..24\n  CONDITION_BLK 2:8 9..23\n";
    assert_eq!(folder.told("outline d.yar"), (1, told.to_string()));
    assert_eq!(folder.told("outline --depth 0 d.yar"), (1, String::new()));
    assert_eq!(folder.told("outline d.yar --depth 1"), (1, told[..35].to_string()));
    let told = "{\"kind\":\"RULE_DECL\",\"start\":0,\"end\":22,\"depth\":1,\"line\":1,\"column\":1}\n";
    assert_eq!(Folder::new().with("a.yar", R).told("outline --json a.yar --depth=1"), (0, told.to_string()));
}

#[test]
fn rows() {
    let folder = Folder::new().with("a.yar", "rule a\n\x1b");
    let told = "1:1     RULE_KW        0..4 \"rule\"
1:5     WHITESPACE     4..5 \" \"
1:6     IDENT          5..6 \"a\"
1:7     NEWLINE        6..7 \"\\n\"
2:1     UNKNOWN        7..8 \"\\u{1b}\"
";
    assert_eq!(folder.told("rows a.yar"), (1, told.to_string()));
    let told = "{\"id\":\"IDENT\",\"start\":0,\"end\":1,\"line\":1,\"column\":1,\"text\":\"a\"}\n";
    assert_eq!(Folder::new().with("b", "a").told("rows --json b"), (1, told.to_string()));
}

#[test]
fn events() {
    let folder = Folder::new().with("b", "@ a");
    let told = "begin SOURCE_FILE 0..3
  error 0 0..1 expecting import statement or rule definition
  begin ERROR 0..3
    token PATTERN_OFFSET 0..1 \"@\"
    token WHITESPACE 1..2 \" \"
    token IDENT 2..3 \"a\"
  end ERROR 0..3
end SOURCE_FILE 0..3
";
    assert_eq!(folder.told("events b"), (1, told.to_string()));
    let told = r#"{"event":"begin","kind":"SOURCE_FILE","start":0,"end":1,"depth":0}
{"event":"error","record":0,"message":"expecting import statement or rule definition","start":0,"end":1,"depth":1}
{"event":"begin","kind":"ERROR","start":0,"end":1,"depth":1}
{"event":"token","kind":"PATTERN_OFFSET","start":0,"end":1,"depth":2}
{"event":"end","kind":"ERROR","start":0,"end":1,"depth":1}
{"event":"end","kind":"SOURCE_FILE","start":0,"end":1,"depth":0}
"#;
    assert_eq!(Folder::new().with("b", "@").told("events --format=json b"), (1, told.to_string()));
    // The pattern and the section with it are closed as ERROR, one in the other, and `1` is skipped in a third, which
    // is joined to the section's.
    let folder = Folder::new().with("two.yar", "rule a{strings:$a=1 condition:true}");
    let count = |words| folder.told(words).1.matches("begin ERROR").count();
    assert_eq!((count("events two.yar"), count("events --merged two.yar")), (3, 2));
}

#[test]
fn json_of_check() {
    let folder = Folder::new().with("d.yar", format!("@ {R}")).with("a.yar", R);
    let told = r#"{"path":"a.yar","status":"accepted","errors":[]}
{"path":"d.yar","status":"errors","errors":[{"form":10,"item":1,"message":"expecting import statement or rule definition","line":1,"column":1,"start":0,"end":1}]}
{"path":"nowhere","status":"unread","reason":"No such file or directory","errors":[]}
{"summary":{"files":3,"accepted":1,"errors":1,"stopped":0,"refused":0,"unread":1}}
"#;
    assert_eq!(folder.told("check --json a.yar d.yar nowhere"), (2, told.to_string()));
    let told = r#"{"path":"a.yar","status":"stopped","reason":"out of fuel","stopped":{"start":0,"line":1,"column":1},"errors":[]}
{"summary":{"files":1,"accepted":0,"errors":0,"stopped":1,"refused":0,"unread":0}}
"#;
    assert_eq!(folder.told("check --json --fuel 0 a.yar"), (2, told.to_string()));
    let folder = Folder::new().with("rows", "{".repeat(65_537));
    let told = r#"{"path":"rows","status":"refused","refusal":1,"reason":"65,537 rows of tokens, over 65,536","errors":[]}"#;
    assert_eq!(folder.told("check --json rows").1.lines().next(), Some(told));
}

#[test]
fn sarif_of_check() {
    let folder = Folder::new().with("é d.yar", "/* é */ @").with("a.yar", R);
    let mut command = folder.command("check --format sarif a.yar nowhere");
    let ran = Ran::of(command.arg("é d.yar"));
    assert_eq!((ran.status, &ran.err[..]), (2, ""));
    let head = r#"{"version":"2.1.0","$schema":"https://docs.oasis-open.org/sarif/sarif/v2.1.0/errata01/os/schemas/sarif-schema-2.1.0.json","runs":[{"tool":{"driver":{"name":"stableglow","version":"0.1.0","rules":[{"id":"form-1","name":"Expecting","#;
    let tail = r#""columnKind":"unicodeCodePoints","invocations":[{"executionSuccessful":false,"exitCode":2,"toolExecutionNotifications":[{"level":"error","message":{"text":"not read: No such file or directory"},"locations":[{"physicalLocation":{"artifactLocation":{"uri":"nowhere"}}}]}]}],"results":[{"ruleId":"form-10","ruleIndex":9,"level":"error","message":{"text":"expecting import statement or rule definition"},"locations":[{"physicalLocation":{"artifactLocation":{"uri":"%C3%A9%20d.yar"},"region":{"startLine":1,"startColumn":9,"endLine":1,"endColumn":10,"byteOffset":9,"byteLength":1}}}]}],"properties":{"files":3,"accepted":1,"errors":1,"stopped":0,"refused":0,"unread":1}}]}
"#;
    assert!(ran.out.starts_with(head) && ran.out.ends_with(tail), "{}", ran.out);
    let (status, out) = folder.told("check --format sarif a.yar");
    assert_eq!(status, 0);
    assert!(
        out.contains(
            r#""executionSuccessful":true,"exitCode":0,"toolExecutionNotifications":[]}],"results":[],"#
        ),
        "{out}"
    );
}

/// Text that is not UTF-8, or that steers a terminal, in files and in their names.
#[test]
fn bytes_that_are_no_text() {
    let folder = Folder::new().with("a.yar", b"rule \"a\xe1\x41\"{").with("b.yar", "rule \x1b[2J");
    let told = "a.yar:1:9: error: invalid UTF-8 character
    1 | rule \"a\u{fffd}A\"{
      |         ^
b.yar:1:6: error: expecting identifier, found `\u{241b}[2J`
    1 | rule \u{241b}[2J
      |      ^^^^
";
    let (status, out) = folder.told("check a.yar b.yar");
    assert_eq!((status, out), (1, told.to_string() + &summary([0, 2, 0, 0, 0])));
    let name = OsStr::from_bytes(b"\"\n\xff\x1b.yar");
    fs::write(folder.0.join(name), R).unwrap();
    let ran = Ran::of(folder.command("check").arg(name));
    assert_eq!(ran.out.lines().next(), Some("\"\u{240a}\u{fffd}\u{241b}.yar: accepted"));
    let ran = Ran::of(folder.command("check --json").arg(name));
    let told = "{\"path\":\"\\\"\\n\u{fffd}\\u001b.yar\",\"status\":\"accepted\",\"errors\":[]}";
    assert_eq!(ran.out.lines().next(), Some(told));
}

#[test]
fn colours_where_they_are_asked_for() {
    let folder = Folder::new().with("a.yar", R);
    let painted = format!("a.yar: \x1b[1;32maccepted\x1b[0m\n{}", summary([1, 0, 0, 0, 0]));
    let plain = format!("a.yar: accepted\n{}", summary([1, 0, 0, 0, 0]));
    assert_eq!(folder.told("check --color always a.yar"), (0, painted));
    assert_eq!(folder.told("check --color never a.yar"), (0, plain.clone()));
    assert_eq!(folder.told("check --color=auto a.yar"), (0, plain));
}

#[test]
fn wrong_use() {
    let folder = Folder::new().with("a.yar", R);
    for (words, why) in [
        ("", "a command is missing"),
        ("chek a.yar", "no command \"chek\""),
        ("check", "a path is missing"),
        ("check --quick a.yar", "no option --quick of this command"),
        ("check -x", "no option -x of this command"),
        ("check --depth 1 a.yar", "no option --depth of this command"),
        ("names --quiet a.yar", "no option --quiet of this command"),
        ("check --json=1 a.yar", "no option --json=1 of this command"),
        ("check a.yar --fuel", "--fuel wants a value"),
        ("check --fuel x a.yar", "--fuel wants a number from 0 to 4294967295, not x"),
        ("check --fuel 4294967296 a.yar", "--fuel wants a number from 0 to 4294967295, not 4294967296"),
        ("check --format xml a.yar", "--format is one of text, json, sarif, not xml"),
        ("names --format sarif a.yar", "sarif is a format of check"),
        ("rows", "a file is missing"),
        ("events a.yar a.yar", "one file at a time"),
    ] {
        let told = format!("stableglow: {why}\n`stableglow --help` tells the use\n");
        assert_eq!(folder.run(words), Ran { status: 64, out: String::new(), err: told }, "{words}");
    }
    // Behind two hyphens all are paths.
    let told = "-x: not read: No such file or directory\n".to_string() + &summary([0, 0, 0, 0, 1]);
    assert_eq!(folder.told("check -- -x"), (2, told));
}

#[test]
fn help_and_version() {
    let folder = Folder::new();
    let (status, help) = folder.told("--help");
    assert_eq!(status, 0);
    for word in [
        "check", "names", "outline", "events", "rows", "--format", "--fuel", "--depth", "--color", "64",
        "141",
    ] {
        assert!(help.contains(word), "{word}");
    }
    assert_eq!(folder.told("help"), (0, help.clone()));
    assert_eq!(folder.told("check --help"), (0, help));
    assert_eq!(folder.told("--version"), (0, "stableglow 0.1.0\n".to_string()));
}
