//! JSON, written.

use std::fmt::Write;

/// A text in quotes.
pub fn text(text: &str) -> String {
    let mut out = String::from("\"");
    for c in text.chars() {
        match c {
            '"' => out += "\\\"",
            '\\' => out += "\\\\",
            '\n' => out += "\\n",
            '\t' => out += "\\t",
            '\r' => out += "\\r",
            // Line separators end a line for some readers of JSON lines; the rest may steer a terminal.
            '\0'..='\x1f' | '\x7f'..='\u{9f}' | '\u{2028}' | '\u{2029}' => {
                write!(out, "\\u{:04x}", c as u32).unwrap()
            }
            _ => out.push(c),
        }
    }
    out + "\""
}

pub fn list(values: impl IntoIterator<Item = String>) -> String {
    format!("[{}]", values.into_iter().collect::<Vec<_>>().join(","))
}

/// An object, member by member.
#[derive(Default)]
pub struct Object(Vec<String>);

impl Object {
    pub fn new() -> Self {
        Self::default()
    }

    /// A member whose value is JSON already.
    pub fn with(mut self, name: &str, value: impl std::fmt::Display) -> Self {
        self.0.push(format!("{}:{value}", text(name)));
        self
    }

    pub fn text(self, name: &str, value: &str) -> Self {
        self.with(name, text(value))
    }

    pub fn end(self) -> String {
        format!("{{{}}}", self.0.join(","))
    }
}

#[cfg(test)]
mod tests {
    use super::*;

    #[test]
    fn texts_are_escaped() {
        assert_eq!(
            text("a\"b\\c\n\t\r\u{1}\u{1b}\u{7f}\u{2028}é/"),
            "\"a\\\"b\\\\c\\n\\t\\r\\u0001\\u001b\\u007f\\u2028é/\""
        );
    }

    #[test]
    fn objects_keep_their_order() {
        let object =
            Object::new().text("b", "x").with("a", 1).with("c", list(["2".to_string(), "3".to_string()]));
        assert_eq!(object.end(), "{\"b\":\"x\",\"a\":1,\"c\":[2,3]}");
        assert_eq!(list([]), "[]");
    }
}
