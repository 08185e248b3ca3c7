//! Files and folders, with the path in every error.

use std::fs;
use std::io;
use std::path::{Path, PathBuf};

use crate::Stop;

/// Names the path in an error.
pub fn at<T>(path: &Path, result: io::Result<T>) -> Result<T, Stop> {
    result.map_err(|error| format!("{}: {error}", path.display()))
}

pub fn read(path: &Path) -> Result<String, Stop> {
    at(path, fs::read_to_string(path))
}

/// What stands in a folder, by name.
pub fn entries(folder: &Path) -> Result<Vec<PathBuf>, Stop> {
    let mut paths = Vec::new();
    for entry in at(folder, fs::read_dir(folder))? {
        paths.push(at(folder, entry)?.path());
    }
    paths.sort();
    Ok(paths)
}

/// Every file of Rattle code below a folder.
pub fn sources(folder: &Path) -> Result<Vec<PathBuf>, Stop> {
    let mut found = Vec::new();
    for path in entries(folder)? {
        if path.is_dir() {
            found.extend(sources(&path)?);
        } else if path.extension().is_some_and(|extension| extension == "rt") {
            found.push(path);
        }
    }
    Ok(found)
}

pub fn make_folder(folder: &Path) -> Result<(), Stop> {
    at(folder, fs::create_dir_all(folder))
}

pub fn remove(folder: &Path) -> Result<(), Stop> {
    match fs::remove_dir_all(folder) {
        Err(error) if error.kind() != io::ErrorKind::NotFound => at(folder, Err(error)),
        _ => Ok(()),
    }
}

/// Makes the folder `to` with all that `from` holds, each file by `put(from, to)`.
pub fn mirror(from: &Path, to: &Path, put: fn(&Path, &Path) -> io::Result<()>) -> Result<(), Stop> {
    make_folder(to)?;
    for path in entries(from)? {
        let other = to.join(path.file_name().expect("an entry has a name"));
        if path.is_dir() {
            mirror(&path, &other, put)?;
        } else {
            at(&other, put(&path, &other))?;
        }
    }
    Ok(())
}

pub fn copy(from: &Path, to: &Path) -> io::Result<()> {
    fs::copy(from, to).map(|_| ())
}

/// Gives a file of what was proved a second name, and copies any other.
pub fn link_checked(from: &Path, to: &Path) -> io::Result<()> {
    match from.extension() {
        Some(extension) if extension == "oantt" => fs::hard_link(from, to),
        _ => copy(from, to),
    }
}

/// Files, each with its length and time.
pub type State = Vec<(PathBuf, u64, Option<std::time::SystemTime>)>;

/// Every file below a folder that holds something, with its length and time, to see whether one was changed.
pub fn state(folder: &Path) -> Result<State, Stop> {
    let mut found = Vec::new();
    for path in entries(folder)? {
        if path.is_dir() {
            found.extend(state(&path)?);
        } else {
            let data = at(&path, fs::metadata(&path))?;
            if data.len() > 0 {
                found.push((path, data.len(), data.modified().ok()));
            }
        }
    }
    Ok(found)
}
