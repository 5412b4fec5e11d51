//! SARIF 2.1.0, for tools that show results.

use crate::json::{list, Object};
use crate::lines::Lines;
use crate::text::Tally;
use crate::verdict::{Checked, Status, Verdict};
use stableglow::Form;
use std::fmt::Write;
use std::os::unix::ffi::OsStrExt;
use std::path::Path;

const SCHEMA: &str =
    "https://docs.oasis-open.org/sarif/sarif/v2.1.0/errata01/os/schemas/sarif-schema-2.1.0.json";

/// What is told, file by file, until the log is written.
#[derive(Default)]
pub struct Log {
    results: Vec<String>,
    notifications: Vec<String>,
}

impl Log {
    pub fn add(&mut self, checked: &Checked) {
        let lines = checked.lines();
        for told in checked.told() {
            let region = region(&lines, told.start, told.end);
            let result = Object::new()
                .text("ruleId", &id(told.form))
                .with("ruleIndex", told.form.number() - 1)
                .text("level", "error")
                .with("message", message(&told.text))
                .with("locations", location(&checked.path, Some(region)));
            self.results.push(result.end());
        }
        let (why, region) = match &checked.verdict {
            Verdict::Refused(_, why) => (format!("refused: {why}"), None),
            Verdict::Unread(why) => (format!("not read: {why}"), None),
            Verdict::Read(..) => match checked.stop() {
                Some((place, why)) => {
                    (format!("stopped: {}", checked.stop_words(why)), Some(region(&lines, place, place)))
                }
                None => return,
            },
        };
        let notification = Object::new()
            .text("level", "error")
            .with("message", message(&why))
            .with("locations", location(&checked.path, region));
        self.notifications.push(notification.end());
    }

    pub fn end(self, tally: &Tally, worst: Status) -> String {
        let driver = Object::new()
            .text("name", "stableglow")
            .text("version", env!("CARGO_PKG_VERSION"))
            .with("rules", list(Form::ALL.map(rule)));
        let invocation = Object::new()
            .with("executionSuccessful", worst <= Status::Errors)
            .with("exitCode", worst.exit())
            .with("toolExecutionNotifications", list(self.notifications));
        let run = Object::new()
            .with("tool", Object::new().with("driver", driver.end()).end())
            .text("columnKind", "unicodeCodePoints")
            .with("invocations", list([invocation.end()]))
            .with("results", list(self.results))
            .with("properties", tally.object());
        let log =
            Object::new().text("version", "2.1.0").text("$schema", SCHEMA).with("runs", list([run.end()]));
        log.end() + "\n"
    }
}

fn id(form: Form) -> String {
    format!("form-{}", form.number())
}

fn rule(form: Form) -> String {
    let words = match form {
        Form::Expecting => "Something else was expected than what was found.",
        Form::ExpectingOther => {
            "Something else was expected than what was found, which is too long to quote."
        }
        Form::ExpectingMore => "Something was expected where the file ends.",
        Form::Unexpected => "What was found fits nowhere here.",
        Form::UnexpectedEnd => "The file ends where it cannot.",
        Form::UnclosedComment => "A comment is never closed.",
        Form::UnclosedString => "A literal string is never closed.",
        Form::UnclosedRegexp => "A regular expression is never closed.",
        Form::InvalidUtf8 => "Text that is not UTF-8.",
        Form::NoItem => "Neither a rule nor an import or include statement begins here.",
    };
    let rule = Object::new().text("id", &id(form)).text("name", &format!("{form:?}"));
    rule.with("shortDescription", message(words)).end()
}

fn message(text: &str) -> String {
    Object::new().text("text", text).end()
}

/// Columns in characters; an end's column is the one behind the last character.
fn region(lines: &Lines, start: usize, end: usize) -> String {
    let column = lines.character(start);
    Object::new()
        .with("startLine", lines.spot(start).line)
        .with("startColumn", column)
        .with("endLine", lines.spot(end).line)
        .with("endColumn", lines.character(end))
        .with("byteOffset", start)
        .with("byteLength", end - start)
        .end()
}

fn location(path: &Path, region: Option<String>) -> String {
    let place = Object::new().with("artifactLocation", Object::new().text("uri", &uri(path)).end());
    let place = match region {
        Some(region) => place.with("region", region),
        None => place,
    };
    list([Object::new().with("physicalLocation", place.end()).end()])
}

/// A path as a reference: a relative one stays relative. Every byte that may mean something else is written in hex.
fn uri(path: &Path) -> String {
    let mut out = String::from(if path.is_absolute() { "file://" } else { "" });
    for &byte in path.as_os_str().as_bytes() {
        match byte {
            b'a'..=b'z' | b'A'..=b'Z' | b'0'..=b'9' | b'/' | b'-' | b'.' | b'_' | b'~' => {
                out.push(byte as char)
            }
            _ => write!(out, "%{byte:02X}").unwrap(),
        }
    }
    out
}

#[cfg(test)]
mod tests {
    use super::*;
    use std::ffi::OsStr;

    #[test]
    fn paths_are_references() {
        assert_eq!(uri(Path::new("a b/c:d#é.yar")), "a%20b/c%3Ad%23%C3%A9.yar");
        assert_eq!(uri(Path::new("/x/y%.yar")), "file:///x/y%25.yar");
        assert_eq!(uri(Path::new(OsStr::from_bytes(b"\xff.yar"))), "%FF.yar");
    }

    #[test]
    fn regions_count_characters() {
        let source = "é x\ny".as_bytes();
        let told = "{\"startLine\":1,\"startColumn\":3,\"endLine\":2,\"endColumn\":2,\"byteOffset\":3,\"byteLength\":3}";
        assert_eq!(region(&Lines::new(source), 3, 6), told);
    }
}
