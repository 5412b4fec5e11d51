//! Takes the Rust's messages apart into document 01's form and names.

use common::kinds::DESCRIPTIONS;

/// The form and names of a message about `found`. The message is put together again from them and must
/// be the same text, so nothing is guessed.
pub fn apart(message: &str, found: &[u8]) -> (u32, Vec<u32>) {
    let (form, names) = match message {
        "unexpected end of file" => (5, vec![]),
        "unclosed comment" => (6, vec![]),
        "unclosed literal string" => (7, vec![]),
        "unclosed regular expression" => (8, vec![]),
        "invalid UTF-8 character" => (9, vec![]),
        "expecting import statement or rule definition" => (10, vec![]),
        _ if message.starts_with("unexpected ") => (4, vec![]),
        _ => expecting(message),
    };
    assert_eq!(together(form, &names, found).as_deref().unwrap_or(message), message);
    (form, names)
}

/// No description holds the word "found" with a comma before it, so the first such place ends the names. None
/// holds a joint either, and no two are the same.
fn expecting(message: &str) -> (u32, Vec<u32>) {
    let list = message.strip_prefix("expecting ").expect(message);
    let (form, list) = match list.split_once(", found ") {
        None => (2, list),
        Some((list, "end of file")) => (3, list),
        Some((list, _)) => (1, list),
    };
    let place = |text: &str| DESCRIPTIONS.iter().position(|d| *d == text);
    let number = |text: &str| place(text).unwrap_or_else(|| panic!("no description {text}")) as u32;
    let names = list.replace(" or ", ", ");
    (form, names.split(", ").map(number).collect())
}

/// The message that forms 1 to 4 stand for; the fixed ones need no test.
fn together(form: u32, names: &[u32], found: &[u8]) -> Option<String> {
    let names: Vec<&str> = names.iter().map(|n| DESCRIPTIONS[*n as usize]).collect();
    let list = match names.split_last() {
        None => String::new(),
        Some((last, [])) => last.to_string(),
        Some((last, others)) => format!("{} or {last}", others.join(", ")),
    };
    let found = String::from_utf8_lossy(found);
    match form {
        1 => Some(format!("expecting {list}, found `{found}`")),
        2 => Some(format!("expecting {list}")),
        3 => Some(format!("expecting {list}, found end of file")),
        4 => Some(format!("unexpected `{found}`")),
        _ => None,
    }
}
