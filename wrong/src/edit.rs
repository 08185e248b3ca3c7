//! An edit in the toolchain's own format: `file: PATH` holds for the pairs `old: TEXT`, `new: TEXT` after it, and each old text must stand
//! exactly once in its file. The first line says what is wrong with the program.

use std::collections::BTreeSet;
use std::path::{Component, Path};

use crate::files::{at, read};
use crate::Stop;

pub struct Edit {
    /// What is wrong with the program, in words.
    pub wrong: String,
    changes: Vec<Change>,
}

struct Change {
    file: String,
    old: String,
    new: String,
}

impl Edit {
    pub fn parse(text: &str) -> Result<Edit, String> {
        let wrong = text.lines().next().and_then(|line| line.strip_prefix("# ")).unwrap_or("").trim().to_string();
        if wrong.is_empty() {
            return Err("its first line does not say what is wrong with the program (`# ..`)".to_string());
        }
        let (mut file, mut old, mut changes) = (None, None, Vec::new());
        for line in text.lines() {
            if let Some(path) = line.strip_prefix("file: ") {
                file = Some(path);
            } else if let Some(text) = line.strip_prefix("old: ") {
                old = Some(text);
            } else if let Some(new) = line.strip_prefix("new:") {
                let file = file.ok_or("a 'new:' line comes before any 'file:' line")?;
                let old = old.take().ok_or("a 'new:' line has no 'old:' line before it")?;
                let new = new.strip_prefix(' ').unwrap_or(new);
                changes.push(Change { file: file.to_string(), old: old.to_string(), new: new.to_string() });
            }
        }
        if changes.is_empty() {
            return Err("it has no 'old:' and 'new:' pair".to_string());
        }
        Ok(Edit { wrong, changes })
    }

    /// The files that it changes.
    pub fn files(&self) -> BTreeSet<&str> {
        self.changes.iter().map(|change| change.file.as_str()).collect()
    }

    /// A file's text with all its changes made, one after the other.
    pub fn change(&self, file: &str, mut text: String) -> Result<String, String> {
        for change in self.changes.iter().filter(|change| change.file == file) {
            match text.matches(change.old.as_str()).count() {
                1 => text = text.replacen(&change.old, &change.new, 1),
                count => return Err(format!("an 'old:' text stands {count} times in {file}")),
            }
        }
        Ok(text)
    }

    /// Changes the files of a crate. An edit that does not apply is an `Ok(Err(..))`: it is the edit that is wrong, not the place.
    pub fn apply(&self, folder: &Path) -> Result<Result<(), String>, Stop> {
        for file in self.files() {
            let path = folder.join(file);
            if !in_crate(file) || !path.is_file() {
                return Ok(Err(format!("{file} is no file of the crate under src/, specs/ or proofs/")));
            }
            match self.change(file, read(&path)?) {
                Ok(text) => at(&path, std::fs::write(&path, text))?,
                Err(why) => return Ok(Err(why)),
            }
        }
        Ok(Ok(()))
    }
}

fn in_crate(file: &str) -> bool {
    let mut parts = Path::new(file).components();
    let first = parts.next();
    let part = ["src", "specs", "proofs"].iter().any(|name| first == Some(Component::Normal(name.as_ref())));
    part && parts.all(|part| matches!(part, Component::Normal(_)))
}
