//! The texts of the benchmark, and what their lines say.

use std::fs;
use std::io;
use std::path::{Path, PathBuf};

/// A text with its name and file.
pub struct Text {
    pub name: String,
    pub path: PathBuf,
    pub bytes: Vec<u8>,
}

/// The texts of a folder, in order of name.
pub fn texts(folder: &Path) -> io::Result<Vec<Text>> {
    let mut texts = Vec::new();
    for entry in fs::read_dir(folder)? {
        let path = entry?.path();
        if path.extension().is_some_and(|extension| extension == "in") {
            let name = path.file_stem().map_or(String::new(), |stem| stem.to_string_lossy().into_owned());
            texts.push(Text { name, bytes: fs::read(&path)?, path });
        }
    }
    texts.sort_by(|a, b| a.name.cmp(&b.name));
    Ok(texts)
}

/// The fields of each line that starts with this word, without the word.
pub fn lines<'a>(text: &'a str, word: &'a str) -> impl Iterator<Item = Vec<&'a str>> + 'a {
    let fields = text.lines().map(|line| line.split('\t').collect::<Vec<&str>>());
    fields.filter(move |fields| fields[0] == word).map(|fields| fields[1..].to_vec())
}
