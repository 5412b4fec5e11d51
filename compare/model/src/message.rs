//! Messages of error records, as the page of requests has them (request (i)).

use crate::utf8::is_text;
use common::kinds::DESCRIPTIONS;

/// The message of the record that the numbers begin with, if it reads.
pub fn text(source: &[u8], numbers: &[u32]) -> Option<Vec<u8>> {
    let &[start, end, form, _item, count, ref behind @ ..] = numbers else { return None };
    let found = source.get(start as usize..end as usize)?;
    let names = behind.get(..count as usize)?;
    if form == 9 && behind.len() == names.len() {
        return None;
    }
    if (1..=3).contains(&form) == names.is_empty() {
        return None;
    }
    for (n, name) in names.iter().enumerate() {
        if *name as usize >= DESCRIPTIONS.len() || names[..n].contains(name) {
            return None;
        }
    }
    let quoted = || (!found.is_empty() && is_text(found)).then_some(found);
    let list = list(names);
    Some(match form {
        1 => [b"expecting ", list.as_bytes(), b", found `", quoted()?, b"`"].concat(),
        2 => [b"expecting ", list.as_bytes()].concat(),
        3 if found.is_empty() => [b"expecting ", list.as_bytes(), b", found end of file"].concat(),
        4 => [b"unexpected `", quoted()?, b"`"].concat(),
        5 => b"unexpected end of file".to_vec(),
        6 => b"unclosed comment".to_vec(),
        7 => b"unclosed literal string".to_vec(),
        8 => b"unclosed regular expression".to_vec(),
        9 => b"invalid UTF-8 character".to_vec(),
        10 => b"expecting import statement or rule definition".to_vec(),
        _ => return None,
    })
}

fn list(names: &[u32]) -> String {
    let texts: Vec<&str> = names.iter().map(|n| DESCRIPTIONS[*n as usize]).collect();
    match texts.split_last() {
        None => String::new(),
        Some((last, [])) => last.to_string(),
        Some((last, others)) => format!("{} or {last}", others.join(", ")),
    }
}
