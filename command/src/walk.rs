//! From paths to files.

use std::fs::{self, Metadata};
use std::os::unix::fs::MetadataExt;
use std::path::{Path, PathBuf};

/// What a file in a folder ends in to be read; a file that is named is read whatever its ending.
const ENDINGS: [&str; 4] = ["yar", "yara", "rule", "rules"];

pub enum Found {
    File(PathBuf),
    /// A place where rules may be missed, and why.
    Trouble(PathBuf, String),
}

impl Found {
    pub fn path(&self) -> &Path {
        let (Found::File(path) | Found::Trouble(path, _)) = self;
        path
    }
}

/// The files of the paths, in the paths' order, and in a folder in the order of names.
pub fn files(paths: &[PathBuf]) -> Vec<Found> {
    let mut found = Vec::new();
    for path in paths {
        match fs::metadata(path) {
            Ok(data) if data.is_dir() && path.as_os_str() != "-" => {
                let before = found.len();
                folder(path, &data, &mut Vec::new(), &mut found);
                if found.len() == before {
                    let words = "no file in it ends in .yar, .yara, .rule or .rules";
                    found.push(Found::Trouble(path.clone(), words.to_string()));
                }
            }
            // What cannot be opened is told when it is read.
            _ => found.push(Found::File(path.clone())),
        }
    }
    found
}

/// The files in and below a folder. Links are followed, but not into a folder that this one lies in: `around` has
/// the device and number of each of those.
fn folder(path: &Path, data: &Metadata, around: &mut Vec<(u64, u64)>, found: &mut Vec<Found>) {
    let this = (data.dev(), data.ino());
    if around.contains(&this) {
        return;
    }
    let read = fs::read_dir(path).and_then(|entries| entries.collect::<Result<Vec<_>, _>>());
    let mut entries = match read {
        Ok(entries) => entries,
        Err(error) => return found.push(Found::Trouble(path.to_path_buf(), words(&error))),
    };
    entries.sort_by_key(|entry| entry.file_name());
    around.push(this);
    for entry in entries {
        let path = entry.path();
        let rules = path.extension().is_some_and(|e| ENDINGS.iter().any(|ending| e == *ending));
        match fs::metadata(&path) {
            Ok(data) if data.is_dir() => folder(&path, &data, around, found),
            Ok(data) if rules && data.is_file() => found.push(Found::File(path)),
            // To open a pipe that nobody writes would wait for ever.
            Ok(_) if rules => found.push(Found::Trouble(path, "is no regular file".to_string())),
            Err(error) if rules => found.push(Found::Trouble(path, words(&error))),
            _ => (),
        }
    }
    around.pop();
}

/// An error of the system in words, without its number.
pub fn words(error: &std::io::Error) -> String {
    let text = error.to_string();
    match text.find(" (os error") {
        Some(end) => text[..end].to_string(),
        None => text,
    }
}
