//! The repository, and rooms: folders below target/ that hold a copy of one crate, which may be changed, and a copy of what `rt check` of that crate
//! kept in its out/. There the kit's prover checks the crate, over the repository's libraries as they stand built.

use std::env;
use std::path::{Path, PathBuf};
use std::process::{Command, Output, Stdio};

use crate::files::{copy, link_checked, make_folder, mirror, read, remove, state, State};
use crate::Stop;

/// The parts of a crate that a check reads.
const PARTS: [&str; 3] = ["src", "specs", "proofs"];

pub struct Crate {
    pub name: String,
    is_static: bool,
    uses: Vec<String>,
}

pub struct Repository {
    pub root: PathBuf,
    /// The folder that has the prover and its libraries.
    kit: PathBuf,
    /// As crates.txt lists them: a crate uses only those above it.
    pub crates: Vec<Crate>,
}

impl Repository {
    /// The repository whose root this program was started in.
    pub fn here() -> Result<Repository, Stop> {
        let root = env::current_dir().map_err(|error| error.to_string())?;
        let crates = read(&root.join("crates.txt"))?.lines().filter_map(listed).collect();
        // The page to read first stands at the top of the kit.
        let page = String::from_utf8_lossy(&ran(Command::new("rt").arg("doc"))?.stdout).trim().to_string();
        let kit = Path::new(&page).parent().filter(|kit| kit.is_absolute());
        let kit = kit.ok_or_else(|| format!("rt doc names no page of a kit: {page}"))?.to_path_buf();
        Ok(Repository { root, kit, crates })
    }

    pub fn has(&self, name: &str) -> bool {
        self.listed(name).is_some()
    }

    fn listed(&self, name: &str) -> Option<&Crate> {
        self.crates.iter().find(|listed| listed.name == name)
    }

    pub fn source(&self, name: &str) -> PathBuf {
        self.root.join("crates").join(name)
    }

    /// What stays after a run.
    pub fn logs(&self) -> PathBuf {
        self.root.join("target/wrong/log")
    }

    /// Rooms of this run: another may go on beside it.
    fn rooms(&self) -> PathBuf {
        self.root.join("target/wrong").join(format!("run-{}", std::process::id()))
    }

    /// The run is over.
    pub fn leave(&self) -> Result<(), Stop> {
        remove(&self.rooms())
    }

    /// Where `rt check` of a crate keeps what it checked.
    fn kept(&self, name: &str) -> PathBuf {
        self.source(name).join("out/incremental")
    }

    /// The crates of the repository that a crate reaches.
    pub fn below(&self, name: &str) -> Vec<&str> {
        let mut reached = vec![name];
        for listed in self.crates.iter().rev() {
            if reached.contains(&listed.name.as_str()) {
                reached.extend(listed.uses.iter().map(String::as_str).filter(|used| self.has(used)));
            }
        }
        self.crates
            .iter()
            .map(|listed| listed.name.as_str())
            .filter(|other| *other != name && reached.contains(other))
            .collect()
    }

    /// Proves the named crates as they stand, the lowest first, and so builds the libraries that they use: a trial then checks only what its change
    /// touches.
    pub fn prove(&self, names: &[&str]) -> Result<(), Stop> {
        for listed in self.crates.iter().filter(|listed| names.contains(&listed.name.as_str())) {
            let check = ran(Command::new("rt").arg("check").current_dir(self.source(&listed.name)))?;
            if !check.status.success() {
                print!("{}", String::from_utf8_lossy(&check.stdout));
                return Err(format!("{} is not proved as it stands: see rt check", listed.name));
            }
        }
        Ok(())
    }

    /// A room with a copy of a crate. What was proved there is copied as links: the prover replaces such a file and does not write into it, which
    /// [`Kept`] makes sure of.
    pub fn room(&self, name: &str, slot: usize) -> Result<Room, Stop> {
        let folder = self.rooms().join(slot.to_string());
        remove(&folder)?;
        make_folder(&folder)?;
        for part in PARTS {
            let from = self.source(name).join(part);
            if from.is_dir() {
                mirror(&from, &folder.join(part), copy)?;
            }
        }
        mirror(&self.kept(name), &folder.join("kept"), link_checked)?;
        Ok(Room { folder, check: self.check(name) })
    }

    /// The prover's command for a crate, as `rt must-fail` gives it.
    fn check(&self, name: &str) -> Vec<String> {
        let of_kit = |part: &str| self.kit.join(part).display().to_string();
        let rlibs = |name: &str| self.source(name).join("out/rlib").display().to_string();
        let root = if self.source(name).join("src/main.rt").is_file() { "src/main.rt" } else { "src/lib.rt" };
        let mut words = vec![of_kit("bin/rattle"), "check".to_string(), root.to_string()];
        let mut put = |flag: &str, value: String| words.extend([flag.to_string(), value]);
        put("--crate-name", name.to_string());
        put("--extern", format!("std={}", of_kit("rlibs/std.rlib")));
        put("-L", format!("dependency={}", of_kit("rlibs")));
        for used in self.listed(name).map_or(&[][..], |listed| &listed.uses) {
            let rlib = if self.has(used) {
                format!("{}/{used}.rlib", rlibs(used))
            } else {
                of_kit(&format!("rlibs/{used}.rlib"))
            };
            put("--extern", format!("{used}={rlib}"));
        }
        self.below(name).into_iter().for_each(|below| put("-L", format!("dependency={}", rlibs(below))));
        put("--antt-project", of_kit("rattle/logic/antt-project.json"));
        put("--logic-built", of_kit("logic_built"));
        put("--links", format!("{name}="));
        if self.listed(name).is_some_and(|listed| listed.is_static) {
            put("--crate-type", "staticlib".to_string());
        }
        put("--jobs", "1".to_string());
        put("--incremental", "kept".to_string());
        words
    }

    /// What the checks of these crates kept, as it is now.
    pub fn keep(&self, names: &[&str]) -> Result<Kept, Stop> {
        let folders: Vec<PathBuf> = names.iter().map(|name| self.kept(name)).collect();
        let states = folders.iter().map(|folder| state(folder)).collect::<Result<_, _>>()?;
        Ok(Kept { folders, states })
    }
}

/// What checks kept, which trials must not change.
pub struct Kept {
    folders: Vec<PathBuf>,
    states: Vec<State>,
}

impl Kept {
    pub fn unchanged(&self) -> Result<(), Stop> {
        for (folder, was) in self.folders.iter().zip(&self.states) {
            if state(folder)? != *was {
                return Err(format!("{} was changed by a trial: later verdicts may rest on it", folder.display()));
            }
        }
        Ok(())
    }
}

/// A line of crates.txt: a name, perhaps with a word on it, and what it uses.
fn listed(line: &str) -> Option<Crate> {
    let line = line.split('#').next().unwrap_or("");
    let (said, uses) = line.split_once(':')?;
    let mut said = said.split_whitespace();
    let name = said.next()?.to_string();
    Some(Crate {
        name,
        is_static: said.any(|word| word == "staticlib"),
        uses: uses.split_whitespace().map(str::to_string).collect(),
    })
}

fn ran(command: &mut Command) -> Result<Output, Stop> {
    let program = command.get_program().to_string_lossy().into_owned();
    command.stdin(Stdio::null()).output().map_err(|error| format!("{program}: {error}"))
}

pub struct Room {
    /// The copy of the crate, which may be changed.
    pub folder: PathBuf,
    check: Vec<String>,
}

impl Room {
    /// Checks the crate as it stands here.
    pub fn checked(&self) -> Result<Output, Stop> {
        ran(Command::new(&self.check[0]).args(&self.check[1..]).current_dir(&self.folder))
    }
}
