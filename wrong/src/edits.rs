//! The edits of `wrong/CRATE/*.edit`, all or a part of them.

use std::path::{Path, PathBuf};
use std::time::Instant;

use crate::edit::Edit;
use crate::files::{at, entries, make_folder, read};
use crate::repository::Repository;
use crate::together::{of_one, Changed, Code};
use crate::trial::{check, side_by_side, Tried, Verdict};
use crate::Stop;

struct Job {
    name: String,
    label: String,
    /// An edit that cannot be read is why, in words.
    edit: Result<Edit, String>,
}

/// The edits of one crate, in groups that one check tries each.
struct Sorted<'a> {
    name: &'a str,
    jobs: Vec<&'a Job>,
    code: Code,
    changed: Vec<Option<Changed>>,
    groups: Vec<Vec<usize>>,
}

/// Whether every edit named, or every one there is, was refused.
pub fn try_edits(repository: &Repository, parts: &[&str]) -> Result<bool, Stop> {
    let begin = Instant::now();
    let jobs = chosen(repository, parts)?;
    if parts.is_empty() {
        on_the_page(repository, &jobs)?;
    }
    // Where single edits are named their whole logs are wanted.
    let alone = parts.iter().any(|part| part.contains('/'));
    let mut names: Vec<&str> = jobs.iter().map(|job| job.name.as_str()).collect();
    names.dedup();
    let sorted = names.iter().map(|name| Sorted::of(repository, name, &jobs, !alone)).collect::<Result<Vec<_>, _>>()?;
    let groups: Vec<(&Sorted, &[usize])> =
        sorted.iter().flat_map(|sorted| sorted.groups.iter().map(move |group| (sorted, group.as_slice()))).collect();
    repository.prove(&names)?;
    let kept = repository.keep(&names)?;
    println!(
        "wrong: {} crates proved ({:.0} s), {} wrong programs in {} checks",
        names.len(),
        begin.elapsed().as_secs_f64(),
        jobs.len(),
        groups.len()
    );
    let tried = side_by_side(
        groups.len(),
        |number, slot| groups[number].0.try_group(repository, groups[number].1, slot),
        |number, tried| {
            let (sorted, group) = groups[number];
            group.iter().zip(tried).for_each(|(edit, tried)| show(sorted.jobs[*edit], tried, alone));
        },
    );
    let tried: Vec<_> = tried.into_iter().flatten().collect();
    kept.unchanged()?;
    repository.leave()?;
    let refused = tried
        .iter()
        .filter(|tried| matches!(tried, Ok(Tried { verdict: Verdict::Refused { shape: false, .. }, .. })))
        .count();
    println!("wrong: {refused} of {} wrong programs refused ({:.0} s)", jobs.len(), begin.elapsed().as_secs_f64());
    Ok(refused == jobs.len())
}

/// All edits, those of the crates with the longest checks first; or those that were named, each of which must be there.
fn chosen(repository: &Repository, parts: &[&str]) -> Result<Vec<Job>, Stop> {
    let mut jobs = Vec::new();
    for listed in repository.crates.iter().rev() {
        let folder = repository.root.join("wrong").join(&listed.name);
        if folder.is_dir() {
            jobs.extend(edits_in(&listed.name, &folder)?);
        }
    }
    if let Some(stray) = stray_folder(repository)? {
        return Err(format!("{} holds edits of no crate that crates.txt lists", stray.display()));
    }
    if parts.is_empty() {
        return Ok(jobs);
    }
    for part in parts {
        if !jobs.iter().any(|job| job.is(part)) {
            return Err(format!("there is no edit {part}: name a crate, or CRATE/LABEL"));
        }
    }
    Ok(jobs.into_iter().filter(|job| parts.iter().any(|part| job.is(part))).collect())
}

/// The page of contracts names every edit, so that it can be read beside the call that it is about.
fn on_the_page(repository: &Repository, jobs: &[Job]) -> Result<(), Stop> {
    let page = read(&repository.root.join("docs/CONTRACTS.md"))?;
    match jobs.iter().find(|job| !page.contains(&format!("`{}`", job.label))) {
        Some(Job { name, label, .. }) => Err(format!("docs/CONTRACTS.md does not name {name}/{label}")),
        None => Ok(()),
    }
}

impl Job {
    fn is(&self, part: &str) -> bool {
        part == self.name || part.split_once('/') == Some((&self.name, &self.label))
    }
}

fn edits_in(name: &str, folder: &Path) -> Result<Vec<Job>, Stop> {
    let paths =
        entries(folder)?.into_iter().filter(|path| path.extension().is_some_and(|extension| extension == "edit"));
    paths.map(|path| Ok(Job { name: name.to_string(), label: stem(&path), edit: Edit::parse(&read(&path)?) })).collect()
}

fn stem(path: &Path) -> String {
    path.file_stem().map(|stem| stem.to_string_lossy().into_owned()).unwrap_or_default()
}

/// A folder with edits that nobody would try.
fn stray_folder(repository: &Repository) -> Result<Option<PathBuf>, Stop> {
    for folder in entries(&repository.root.join("wrong"))?.into_iter().filter(|path| path.is_dir()) {
        let name = folder.file_name().map(|name| name.to_string_lossy().into_owned()).unwrap_or_default();
        if !repository.has(&name) && !edits_in(&name, &folder)?.is_empty() {
            return Ok(Some(folder));
        }
    }
    Ok(None)
}

impl Sorted<'_> {
    /// Edits that were named singly are tried one by one.
    fn of<'a>(repository: &Repository, name: &'a str, jobs: &'a [Job], together: bool) -> Result<Sorted<'a>, Stop> {
        let jobs: Vec<&Job> = jobs.iter().filter(|job| job.name == name).collect();
        let code = Code::of(&repository.source(name))?;
        let changed: Vec<_> =
            jobs.iter().map(|job| job.edit.as_ref().ok().and_then(|edit| code.changed(edit))).collect();
        let groups = if together { code.groups(&changed) } else { (0..jobs.len()).map(|edit| vec![edit]).collect() };
        Ok(Sorted { name, jobs, code, changed, groups })
    }

    /// Tries the edits of a group in one check. One of which that check does not say that it is refused for itself is tried alone.
    fn try_group(&self, repository: &Repository, group: &[usize], slot: usize) -> Vec<Result<Tried, Stop>> {
        let mut all = None;
        if group.len() > 1 {
            match self.check_together(repository, group, slot) {
                Ok(tried) => all = Some(tried),
                Err(stop) => return group.iter().map(|_| Err(stop.clone())).collect(),
            }
        }
        let own =
            |edit: usize| of_one(all.as_ref()?, self.name, self.code.path(self.changed[edit].as_ref()?), group.len());
        let trial = |edit: usize| match own(edit) {
            Some(tried) => noted(repository, self.jobs[edit], tried),
            None => try_edit(repository, self.jobs[edit], slot),
        };
        group.iter().map(|edit| trial(*edit)).collect()
    }

    fn check_together(&self, repository: &Repository, group: &[usize], slot: usize) -> Result<Tried, Stop> {
        let room = repository.room(self.name, slot)?;
        let changed: Vec<&Changed> = group.iter().filter_map(|edit| self.changed[*edit].as_ref()).collect();
        self.code.write(&room.folder, &changed)?;
        check(&room)
    }
}

fn try_edit(repository: &Repository, job: &Job, slot: usize) -> Result<Tried, Stop> {
    let edit = match &job.edit {
        Ok(edit) => edit,
        Err(why) => return Ok(Tried::never(why.clone())),
    };
    let room = repository.room(&job.name, slot)?;
    if let Err(why) = edit.apply(&room.folder)? {
        return Ok(Tried::never(why));
    }
    noted(repository, job, check(&room)?)
}

/// Writes the log of a trial, with what is wrong with the program.
fn noted(repository: &Repository, job: &Job, mut tried: Tried) -> Result<Tried, Stop> {
    let wrong = job.edit.as_ref().map_or("", |edit| edit.wrong.as_str());
    tried.log.insert_str(0, &format!("# {wrong}\n"));
    let logs = repository.logs().join(&job.name);
    make_folder(&logs)?;
    let log = logs.join(format!("{}.log", job.label));
    at(&log, std::fs::write(&log, &tried.log))?;
    Ok(tried)
}

fn show(job: &Job, tried: &Result<Tried, Stop>, whole: bool) {
    let Job { name, label, .. } = job;
    match tried {
        Err(stop) => println!("wrong {name}/{label}: STOPPED: {stop}"),
        Ok(Tried { verdict, log, seconds, edits }) => {
            let time = if *edits == 1 { format!("{seconds:.1} s") } else { format!("{edits} in {seconds:.1} s") };
            match verdict {
                Verdict::Refused { place, shape: true } => {
                    println!("wrong {name}/{label}: BAD EDIT: refused at {place} for its shape alone: the proof names what is gone")
                }
                Verdict::Refused { place, .. } => {
                    println!("wrong {name}/{label}: refused, first at {place} ({time})")
                }
                Verdict::Survived => {
                    println!("wrong {name}/{label}: NOT REFUSED: the crate is still proved ({time})")
                }
                Verdict::NoProgram(why) => println!("wrong {name}/{label}: BAD EDIT: {why}"),
            }
            if whole {
                log.lines().for_each(|line| println!("    {line}"));
            }
        }
    }
}
