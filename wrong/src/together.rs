//! Edits that are tried together. The prover judges a function by its own body and the contracts of those that it calls, never by their bodies:
//! so edits of several functions can stand in one check, and each is refused exactly if its own function is.

use std::collections::HashSet;
use std::fs;
use std::ops::Range;
use std::path::{Path, PathBuf};

use crate::code::{bodies, tokens, Token};
use crate::edit::Edit;
use crate::files::{at, read, sources};
use crate::trial::{folder_of, own_verdict, Tried, Verdict};
use crate::Stop;

/// The most edits in one check: enough that loading the crate counts little, and few enough that all cores have work to the end.
const MOST: usize = 12;

/// A file of a crate's code, cut into the bodies of its functions and all else.
struct File {
    /// Below the crate's folder.
    path: String,
    text: String,
    functions: Vec<Function>,
    /// The tokens outside of all bodies.
    frame: Vec<String>,
}

struct Function {
    /// As the prover calls it behind the crate's name: modules and name.
    path: String,
    body: Range<usize>,
    /// The tokens of the body. Among them are the names of the functions that it calls.
    tokens: Vec<String>,
}

/// The code of a crate, as it stands.
pub struct Code {
    folder: PathBuf,
    files: Vec<File>,
}

/// An edit that changes the body of one function, perhaps with that function's proof, and nothing else.
pub struct Changed {
    /// The function's file and its place there.
    file: usize,
    function: usize,
    /// The body that the edit makes.
    body: String,
    /// The proof's files that it changes, below the crate's folder, with their texts.
    proof: Vec<(String, String)>,
}

impl File {
    fn cut(path: &str, text: String) -> File {
        let tokens = tokens(&text);
        let written = |part: &[Token]| part.iter().map(|token| token.text.clone()).collect::<Vec<_>>();
        let (mut functions, mut frame, mut from) = (Vec::new(), Vec::new(), 0);
        for body in bodies(&tokens) {
            let Some(name) = body.function else { continue };
            let part = &tokens[body.tokens.clone()];
            let (Some(first), Some(last)) = (part.first(), part.last()) else { continue };
            frame.extend(written(&tokens[from..body.tokens.start]));
            from = body.tokens.end;
            let path = format!("{}{name}", modules(path));
            functions.push(Function { path, body: first.at.start..last.at.end, tokens: written(part) });
        }
        frame.extend(written(&tokens[from..]));
        File { path: path.to_string(), text, functions, frame }
    }

    /// The one function whose body another text of this file changes, if it changes nothing else, with that body.
    fn changed_by(&self, text: String) -> Option<(usize, String)> {
        let other = File::cut(&self.path, text);
        if self.frame != other.frame || self.functions.len() != other.functions.len() {
            return None;
        }
        let same = |function: &usize| self.functions[*function].tokens == other.functions[*function].tokens;
        let mut changed = (0..self.functions.len()).filter(|function| !same(function));
        let one = changed.next()?;
        changed.next().is_none().then(|| (one, other.text[other.functions[one].body.clone()].to_string()))
    }
}

/// The modules that a file stands for, each with its `::`; a crate's first file stands for none.
fn modules(path: &str) -> String {
    match path.trim_start_matches("src/").trim_end_matches(".rt") {
        "lib" | "main" => String::new(),
        inner => format!("{}::", inner.replace('/', "::")),
    }
}

impl Code {
    pub fn of(folder: &Path) -> Result<Code, Stop> {
        let mut files = Vec::new();
        for path in sources(&folder.join("src"))? {
            let below = path.strip_prefix(folder).expect("a file of the crate").to_string_lossy().into_owned();
            files.push(File::cut(&below, read(&path)?));
        }
        Ok(Code { folder: folder.to_path_buf(), files })
    }

    /// The function whose body has this place of a file.
    pub fn at(&self, file: &Path, place: usize) -> Option<&str> {
        let file = self.files.iter().find(|cut| Path::new(&cut.path) == file)?;
        file.functions.iter().find(|function| function.body.contains(&place)).map(|function| function.path.as_str())
    }

    /// What an edit changes, if that is one function's body, perhaps with that function's proof.
    pub fn changed(&self, edit: &Edit) -> Option<Changed> {
        let (code, proof): (Vec<&str>, Vec<&str>) = edit.files().into_iter().partition(|file| file.starts_with("src/"));
        let [path] = code[..] else { return None };
        let file = self.files.iter().position(|file| file.path == path)?;
        let text = edit.change(path, self.files[file].text.clone()).ok()?;
        let (function, body) = self.files[file].changed_by(text)?;
        let own = folder_of(&self.files[file].functions[function].path);
        let part = |file: &str| {
            let text = edit.change(file, read(&self.folder.join(file)).ok()?).ok()?;
            file.starts_with(&own).then(|| (file.to_string(), text))
        };
        let proof = proof.into_iter().map(part).collect::<Option<_>>()?;
        Some(Changed { file, function, body, proof })
    }

    fn function(&self, changed: &Changed) -> &Function {
        &self.files[changed.file].functions[changed.function]
    }

    pub fn path(&self, changed: &Changed) -> &str {
        &self.function(changed).path
    }

    /// Groups of edits, each edit given by what it changes; one that changes more than a body is tried alone. In a group no function is another or
    /// calls another, by whatever way, since the prover does not judge for itself a function whose callee is refused.
    pub fn groups(&self, changed: &[Option<Changed>]) -> Vec<Vec<usize>> {
        let reached: Vec<_> = changed.iter().map(|one| one.as_ref().map(|one| self.reached(one))).collect();
        let reaches = |a: usize, b: usize| match (&reached[a], &changed[b]) {
            (Some(reached), Some(other)) => reached.contains(self.path(other)),
            _ => true,
        };
        let mut groups: Vec<Vec<usize>> = Vec::new();
        for edit in 0..changed.len() {
            let apart = |other: &usize| !reaches(edit, *other) && !reaches(*other, edit);
            match groups.iter_mut().find(|group| group.len() < MOST && group.iter().all(apart)) {
                Some(group) => group.push(edit),
                None => groups.push(vec![edit]),
            }
        }
        groups
    }

    /// A function, and all that it calls by whatever way: those whose names its body has, which may be more.
    fn reached(&self, changed: &Changed) -> HashSet<&str> {
        let all = || self.files.iter().flat_map(|file| &file.functions);
        let mut reached = HashSet::from([self.path(changed)]);
        let mut open = vec![self.function(changed)];
        while let Some(caller) = open.pop() {
            for callee in
                all().filter(|callee| caller.tokens.iter().any(|token| callee.path.rsplit("::").next() == Some(token)))
            {
                if reached.insert(&callee.path) {
                    open.push(callee);
                }
            }
        }
        reached
    }

    /// Writes the crate's code with these bodies, and their proofs, in place of its own.
    pub fn write(&self, folder: &Path, changed: &[&Changed]) -> Result<(), Stop> {
        for (number, file) in self.files.iter().enumerate() {
            let mut here: Vec<_> = changed.iter().filter(|one| one.file == number).collect();
            // From the last on, so that the places of those before it stay.
            here.sort_by_key(|one| std::cmp::Reverse(one.function));
            let mut text = file.text.clone();
            for one in here {
                text.replace_range(self.function(one).body.clone(), &one.body);
            }
            let path = folder.join(&file.path);
            at(&path, fs::write(&path, text))?;
        }
        for (file, text) in changed.iter().flat_map(|one| &one.proof) {
            let path = folder.join(file);
            at(&path, fs::write(&path, text))?;
        }
        Ok(())
    }
}

/// What a check of several edits says of one, by its function: its refusal, or nothing that can be said of it alone.
pub fn of_one(all: &Tried, name: &str, path: &str, edits: usize) -> Option<Tried> {
    let Verdict::Refused { .. } = all.verdict else { return None };
    let (verdict, log) = own_verdict(name, path, &all.log)?;
    Some(Tried { verdict, log, seconds: all.seconds, edits })
}
