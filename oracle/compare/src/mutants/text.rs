//! Wrong drivers: edits of a copy of the published text, of its patch, or of what puts both together. Each is built and compared with
//! the port, and must differ.
//!
//! An edit is a file with lines `kind:` (a kind of call that must catch it; there may be several), `file:`, `after:` (a text that comes
//! before the place, if the place alone is not unique), `old:` and `new:`.

use crate::options::Options;
use std::path::{Path, PathBuf};
use std::process::{Command, Output};
use std::{env, fs, io};

/// A replacement of a text that stands once behind another.
struct Replacement {
    file: PathBuf,
    after: String,
    old: String,
    new: String,
}

/// A wrong driver.
struct Edit {
    name: String,
    /// Each must catch it.
    kinds: Vec<String>,
    replacements: Vec<Replacement>,
}

impl Edit {
    fn read(path: &Path) -> Result<Edit, String> {
        let name = path.file_stem().unwrap_or_default().to_string_lossy().into_owned();
        let text = fs::read_to_string(path).map_err(|error| format!("{}: {error}", path.display()))?;
        let mut edit = Edit { name, kinds: Vec::new(), replacements: Vec::new() };
        let (mut file, mut after, mut old) = (PathBuf::new(), String::new(), String::new());
        for line in text.lines() {
            let (key, value) = line.split_once(':').ok_or_else(|| format!("{}: no key in {line}", edit.name))?;
            let value = value.trim();
            match key {
                "kind" => edit.kinds.push(value.to_owned()),
                "file" => file = value.into(),
                "after" => after = value.to_owned(),
                "old" => old = value.to_owned(),
                "new" => {
                    let (after, old) = (std::mem::take(&mut after), std::mem::take(&mut old));
                    edit.replacements.push(Replacement { file: file.clone(), after, old, new: value.to_owned() });
                }
                _ => return Err(format!("{}: unknown key {key}", edit.name)),
            }
        }
        Ok(edit)
    }

    /// The texts of the edited files.
    fn applied(&self, workspace: &Path) -> Result<Vec<(PathBuf, String)>, String> {
        let mut files: Vec<(PathBuf, String)> = Vec::new();
        for replacement in &self.replacements {
            let path = workspace.join(&replacement.file);
            let text = match files.iter().position(|(edited, _)| *edited == path) {
                Some(at) => files.remove(at).1,
                None => fs::read_to_string(&path).map_err(|error| format!("{}: {error}", path.display()))?,
            };
            let text = replacement.apply(&text).map_err(|error| format!("{}: {error}", self.name))?;
            files.push((path, text));
        }
        Ok(files)
    }
}

impl Replacement {
    fn apply(&self, text: &str) -> Result<String, String> {
        let begin = match text.find(&self.after) {
            Some(at) => at + self.after.len(),
            None => return Err(format!("`{}` is not there", self.after)),
        };
        let (before, rest) = text.split_at(begin);
        let count = rest.matches(&self.old).count();
        if count == 0 || self.after.is_empty() && count > 1 {
            return Err(format!("`{}` is there {count} times", self.old));
        }
        Ok(format!("{before}{}", rest.replacen(&self.old, &self.new, 1)))
    }
}

/// A copy of the oracle's workspace that can be edited and built.
struct Copy {
    workspace: PathBuf,
    build: PathBuf,
    archive: PathBuf,
}

impl Copy {
    /// Copies the workspace and the bindings beside it, under the repository's `target`.
    fn make(workspace: &Path) -> io::Result<Copy> {
        let root = workspace.join("..").canonicalize()?;
        let folder = root.join("target/text-mutants");
        for part in ["oracle", "bindings"] {
            let copy = folder.join(part);
            if copy.exists() {
                fs::remove_dir_all(&copy)?;
            }
            copy_folder(&root.join(part), &copy)?;
        }
        Ok(Copy {
            workspace: folder.join("oracle"),
            build: folder.join("build"),
            archive: env::var_os("QSPI_ABI_DIR").map_or_else(|| root.join("target/staticlib"), PathBuf::from),
        })
    }

    /// Builds the edited comparison. It is built without optimization, because each edit is run for a moment only.
    fn build(&self) -> io::Result<Output> {
        Command::new("cargo")
            .args(["build", "--release", "--offline", "--quiet", "--package", "compare"])
            .current_dir(&self.workspace)
            .env("CARGO_TARGET_DIR", &self.build)
            .env("CARGO_PROFILE_RELEASE_OPT_LEVEL", "0")
            .env("CARGO_INCREMENTAL", "1")
            .env("QSPI_ABI_DIR", &self.archive)
            .output()
    }

    fn compare(&self, kind: &str, seed: u64) -> io::Result<Output> {
        Command::new(self.build.join("release/compare"))
            .args(["--calls", "0", "--kinds", kind, "--seed", &seed.to_string()])
            .output()
    }
}

fn copy_folder(from: &Path, to: &Path) -> io::Result<()> {
    fs::create_dir_all(to)?;
    for entry in fs::read_dir(from)? {
        let entry = entry?;
        let (source, target) = (entry.path(), to.join(entry.file_name()));
        if !entry.file_type()?.is_dir() {
            fs::copy(source, target)?;
        } else if entry.file_name() != "target" {
            copy_folder(&source, &target)?;
        }
    }
    Ok(())
}

/// Tries every edit; gives how many there are and how many survive.
pub fn try_edits(options: &Options) -> Result<(usize, usize), String> {
    let copy = Copy::make(&options.workspace).map_err(|error| format!("the workspace cannot be copied: {error}"))?;
    let edits = read_edits(&options.workspace.join("compare/mutants"))?;
    let mut survived = 0;
    for edit in &edits {
        match try_edit(edit, &copy, options.seed)? {
            Ok(difference) => println!("caught    {:<42} by {}: {difference}", edit.name, edit.kinds.join(" and ")),
            Err(kind) => {
                survived += 1;
                println!("SURVIVED  {:<42} in {kind}", edit.name);
            }
        }
    }
    Ok((edits.len(), survived))
}

fn read_edits(folder: &Path) -> Result<Vec<Edit>, String> {
    let entries = fs::read_dir(folder).map_err(|error| format!("{}: {error}", folder.display()))?;
    let mut paths: Vec<PathBuf> = entries.flatten().map(|entry| entry.path()).collect();
    paths.sort();
    paths.iter().map(|path| Edit::read(path)).collect()
}

/// Builds the edited text, puts the right one back and compares. Gives the difference that the first kind finds, or the kind that finds
/// none.
fn try_edit<'a>(edit: &'a Edit, copy: &Copy, seed: u64) -> Result<Result<String, &'a str>, String> {
    let failed = |error: io::Error| format!("{}: {error}", edit.name);
    let edited = edit.applied(&copy.workspace)?;
    let right = edited.iter().map(|(path, _)| fs::read_to_string(path)).collect::<io::Result<Vec<_>>>();
    let right = right.map_err(failed)?;
    for (path, text) in &edited {
        fs::write(path, text).map_err(failed)?;
    }
    let built = copy.build().map_err(failed)?;
    for ((path, _), text) in edited.iter().zip(right) {
        fs::write(path, text).map_err(failed)?;
    }
    if !built.status.success() {
        return Err(format!("{} does not build:\n{}", edit.name, String::from_utf8_lossy(&built.stderr)));
    }
    let mut first = None;
    for kind in &edit.kinds {
        let Some(found) = difference(&copy.compare(kind, seed).map_err(failed)?) else {
            return Ok(Err(kind));
        };
        first.get_or_insert(found);
    }
    first.map(Ok).ok_or_else(|| format!("{} names no kind of call", edit.name))
}

/// The line with the smallest difference. A panic of the edited driver or a missing answer is none.
fn difference(compared: &Output) -> Option<String> {
    let text = String::from_utf8_lossy(&compared.stdout);
    let line = text.lines().find_map(|line| line.strip_prefix("smallest: ")).map(str::to_owned);
    line.filter(|_| compared.status.code() == Some(i32::from(crate::comparison::DIFFERENCE)))
}

#[cfg(test)]
mod tests {
    use super::*;

    fn replacement(after: &str, old: &str) -> Replacement {
        Replacement { file: PathBuf::new(), after: after.to_owned(), old: old.to_owned(), new: "c".to_owned() }
    }

    #[test]
    fn a_place_must_be_unique_or_stand_behind_another() {
        assert_eq!(replacement("", "a").apply("x a y"), Ok("x c y".to_owned()));
        assert!(replacement("", "a").apply("a a").is_err());
        assert!(replacement("", "b").apply("a").is_err());
        assert_eq!(replacement("x", "a").apply("a x a a"), Ok("a x c a".to_owned()));
        assert!(replacement("z", "a").apply("a").is_err());
    }

    #[test]
    fn every_edit_applies_and_the_patch_to_it() {
        let workspace = Path::new(env!("CARGO_MANIFEST_DIR")).parent().expect("the oracle's folder");
        let edits = read_edits(&workspace.join("compare/mutants")).expect("edits");
        assert!(edits.len() >= 12);
        for edit in edits {
            assert!(!edit.replacements.is_empty() && !edit.kinds.is_empty());
            let edited = edit.applied(workspace).expect("it applies");
            let text = |path: PathBuf| match edited.iter().find(|(edited, _)| *edited == path) {
                Some((_, text)) => text.clone(),
                None => fs::read_to_string(path).expect("a text"),
            };
            patched::apply(&text(patched::patch()), &text(patched::published())).expect(&edit.name);
        }
    }

    #[test]
    fn the_published_text_itself_is_a_wrong_driver() {
        let workspace = Path::new(env!("CARGO_MANIFEST_DIR")).parent().expect("the oracle's folder");
        let edit = Edit::read(&workspace.join("compare/mutants/published_without_the_patch.edit")).expect("an edit");
        let [(file, text)] = &edit.applied(workspace).expect("it applies")[..] else { panic!("one file") };
        let (_, include) = text.split_once("include!(\"").expect("the text is included");
        let (included, _) = include.split_once('"').expect("a path");
        let included = file.with_file_name(included).canonicalize().expect("the published text");
        assert_eq!(included, patched::published().canonicalize().expect("the published text"));
    }
}
