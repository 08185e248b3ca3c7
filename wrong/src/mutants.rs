//! Mutants of a crate: seeded one-place changes of its code, tried like edits.

use std::fs;
use std::path::PathBuf;
use std::time::Instant;

use crate::code::{tokens, Declared};
use crate::files::{at, read, sources};
use crate::operators::{mutants, Mutant};
use crate::repository::Repository;
use crate::together::Code;
use crate::trial::{check, side_by_side, Tried, Verdict};
use crate::Stop;

/// A change of one file of the crate.
struct Placed {
    /// Below the crate's folder.
    file: PathBuf,
    line: usize,
    /// The line as it stands, and as the change makes it.
    before: String,
    after: String,
    mutant: Mutant,
}

/// Whether none of `count` mutants that are programs survived, of a crate, or of a module or function of it (`motikhund::block`).
pub fn try_mutants(repository: &Repository, part: &str, count: usize, seed: u64) -> Result<bool, Stop> {
    let (name, inner) = part.split_once("::").map_or((part, None), |(name, inner)| (name, Some(inner)));
    if !repository.has(name) {
        return Err(format!("crates.txt lists no crate {name}"));
    }
    let begin = Instant::now();
    let mut all = placed(repository, name)?;
    if let Some(inner) = inner {
        let code = Code::of(&repository.source(name))?;
        all.retain(|one| code.at(&one.file, one.mutant.at.start).is_some_and(|path| is_in(path, inner)));
    }
    let there = all.len();
    shuffle(&mut all, seed);
    repository.prove(&[name])?;
    let kept = repository.keep(&[name])?;
    println!("mutants of {part}: {there} one-place changes, {count} programs among them to be tried, seed {seed}");
    let (mut refused, mut survived, mut none) = (0, 0, 0);
    // Some changes are no programs: as many more are drawn until enough were judged by the prover.
    while refused + survived < count && !all.is_empty() {
        let drawn: Vec<Placed> = all.drain(..(count - refused - survived).min(all.len())).collect();
        let tried = side_by_side(
            drawn.len(),
            |number, slot| try_one(repository, name, &drawn[number], slot),
            |number, tried| show(&drawn[number], tried),
        );
        for tried in tried {
            match tried?.verdict {
                Verdict::Refused { .. } => refused += 1,
                Verdict::Survived => survived += 1,
                Verdict::NoProgram(_) => none += 1,
            }
        }
    }
    kept.unchanged()?;
    repository.leave()?;
    let seconds = begin.elapsed().as_secs_f64();
    println!("mutants of {part}: {} tried, {refused} refused, {survived} survived; {none} more were no programs ({seconds:.0} s)", refused + survived);
    Ok(survived == 0)
}

/// Whether a function is the one that is meant, or stands in the module that is.
pub fn is_in(path: &str, inner: &str) -> bool {
    path.strip_prefix(inner).is_some_and(|rest| rest.is_empty() || rest.starts_with("::"))
}

/// Every change of every file of the crate's code.
fn placed(repository: &Repository, name: &str) -> Result<Vec<Placed>, Stop> {
    let mut declared = Declared::default();
    for used in repository.below(name).into_iter().chain([name]) {
        for path in sources(&repository.source(used).join("src"))? {
            declared.read(&tokens(&read(&path)?));
        }
    }
    let folder = repository.source(name);
    let mut found = Vec::new();
    for path in sources(&folder.join("src"))? {
        let text = read(&path)?;
        let file = path.strip_prefix(&folder).expect("a file of the crate").to_path_buf();
        for mutant in mutants(&text, &tokens(&text), &declared) {
            found.push(placed_at(&text, file.clone(), mutant));
        }
    }
    Ok(found)
}

fn placed_at(text: &str, file: PathBuf, mutant: Mutant) -> Placed {
    let line = text[..mutant.at.start].matches('\n').count() + 1;
    let start = text[..mutant.at.start].rfind('\n').map_or(0, |end| end + 1);
    let end = text[mutant.at.end..].find('\n').map_or(text.len(), |end| mutant.at.end + end);
    let flat = |text: &str| text.split_whitespace().collect::<Vec<_>>().join(" ");
    let before = flat(&text[start..end]);
    let after = flat(&format!("{}{}{}", &text[start..mutant.at.start], mutant.new, &text[mutant.at.end..end]));
    Placed { file, line, before, after, mutant }
}

fn try_one(repository: &Repository, name: &str, placed: &Placed, slot: usize) -> Result<Tried, Stop> {
    let room = repository.room(name, slot)?;
    let path = room.folder.join(&placed.file);
    let mut text = read(&path)?;
    text.replace_range(placed.mutant.at.clone(), &placed.mutant.new);
    at(&path, fs::write(&path, text))?;
    check(&room)
}

fn show(placed: &Placed, tried: &Result<Tried, Stop>) {
    let verdict = match tried {
        Err(stop) => format!("STOPPED: {stop}"),
        Ok(Tried { verdict: Verdict::Refused { place, .. }, seconds, .. }) => {
            format!("refused, first at {place} ({seconds:.1} s)")
        }
        Ok(Tried { verdict: Verdict::Survived, seconds, .. }) => format!("SURVIVED ({seconds:.1} s)"),
        Ok(Tried { verdict: Verdict::NoProgram(_), .. }) => "no program".to_string(),
    };
    let Placed { file, line, before, after, mutant } = placed;
    println!("{}:{line}: {}: {verdict}\n    {before}\n    {after}", file.display(), mutant.what);
}

/// Shuffled by a small seeded source of numbers (splitmix64), so that a run can be made again.
fn shuffle<T>(items: &mut [T], seed: u64) {
    let mut state = seed;
    for left in (2..=items.len()).rev() {
        state = state.wrapping_add(0x9E37_79B9_7F4A_7C15);
        let mut z = state;
        z = (z ^ (z >> 30)).wrapping_mul(0xBF58_476D_1CE4_E5B9);
        z = (z ^ (z >> 27)).wrapping_mul(0x94D0_49BB_1331_11EB);
        items.swap(left - 1, ((z ^ (z >> 31)) % left as u64) as usize);
    }
}
