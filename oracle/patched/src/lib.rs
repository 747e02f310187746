//! The published driver with the patch of document 02 on it. A patch is applied to the letter or not at all: no line is sought
//! elsewhere, and none may differ.

use std::fs;
use std::path::{Path, PathBuf};

/// The published driver, as the patch names it.
const FILE: &str = "zedboard-bsp/src/qspi_spansion.rs";

/// The published text, which stays as it is.
pub fn published() -> PathBuf {
    oracle().join("published").join(FILE)
}

/// The one wait of document 02, U2.
pub fn patch() -> PathBuf {
    oracle().join("patches/U2-wait-for-last-word.patch")
}

fn oracle() -> &'static Path {
    let oracle = Path::new(env!("CARGO_MANIFEST_DIR")).parent();
    oracle.expect("this crate stands in the oracle's folder")
}

/// The text that the port is compared with.
pub fn qspi_spansion() -> Result<String, String> {
    let read = |file: &Path| fs::read_to_string(file).map_err(|error| format!("{}: {error}", file.display()));
    let (published, patch) = (published(), patch());
    let patched = apply(&read(&patch)?, &read(&published)?);
    patched.map_err(|error| format!("{} does not apply to {}: {error}", patch.display(), published.display()))
}

/// Applies a unified diff of the one file to its text.
pub fn apply(patch: &str, text: &str) -> Result<String, String> {
    let names = format!("--- a/{FILE}\n+++ b/{FILE}\n");
    let (_, diff) = patch.split_once(&names).ok_or_else(|| format!("it does not name {FILE}"))?;
    let lines: Vec<&str> = text.split_inclusive('\n').collect();
    let mut patched = Vec::new();
    let mut done = 0;
    for hunk in hunks(diff)? {
        patched.extend(lines.get(done..hunk.begin).ok_or_else(|| format!("no line {}", hunk.begin + 1))?);
        if patched.len() != hunk.new_begin {
            return Err(format!("line {} would be line {}", hunk.begin + 1, patched.len() + 1));
        }
        done = hunk.begin;
        for old in hunk.old {
            let line = lines.get(done).ok_or_else(|| format!("no line {}", done + 1))?;
            if *line != old {
                return Err(format!("line {} is {line:?} and should be {old:?}", done + 1));
            }
            done += 1;
        }
        patched.extend(hunk.new);
    }
    patched.extend(&lines[done..]);
    Ok(patched.concat())
}

/// Lines that stand for others. Lines have their ends, and count from 0.
struct Hunk<'a> {
    begin: usize,
    new_begin: usize,
    old: Vec<&'a str>,
    new: Vec<&'a str>,
}

fn hunks(diff: &str) -> Result<Vec<Hunk<'_>>, String> {
    let mut lines = diff.split_inclusive('\n').peekable();
    let mut hunks = Vec::new();
    while let Some(header) = lines.next() {
        let bad = || format!("{header:?} is no head of a hunk");
        let [(begin, old_length), (new_begin, new_length)] = ranges(header).ok_or_else(bad)?;
        let mut hunk = Hunk { begin, new_begin, old: Vec::new(), new: Vec::new() };
        while let Some(line) = lines.next_if(|line| !line.starts_with("@@")) {
            match line.split_at_checked(1) {
                Some((" ", same)) => {
                    hunk.old.push(same);
                    hunk.new.push(same);
                }
                Some(("-", old)) => hunk.old.push(old),
                Some(("+", new)) => hunk.new.push(new),
                _ => return Err(format!("{line:?} is neither kept nor old nor new")),
            }
        }
        if (hunk.old.len(), hunk.new.len()) != (old_length, new_length) {
            return Err(format!("{header:?} counts other lines than there are"));
        }
        hunks.push(hunk);
    }
    if hunks.is_empty() { Err("it has no hunk".to_owned()) } else { Ok(hunks) }
}

/// Begin and length of the old lines and of the new ones, from `@@ -1,2 +1,2 @@`.
fn ranges(header: &str) -> Option<[(usize, usize); 2]> {
    let (ranges, _) = header.strip_prefix("@@ -")?.split_once(" @@")?;
    let (old, new) = ranges.split_once(" +")?;
    let range = |range: &str| {
        let (begin, length) = range.split_once(',')?;
        Some((begin.parse::<usize>().ok()?.checked_sub(1)?, length.parse().ok()?))
    };
    Some([range(old)?, range(new)?])
}

#[cfg(test)]
mod tests {
    use super::*;

    const TEXT: &str = "a\nb\nc\nd\ne\n";

    fn diff(hunks: &str) -> String {
        format!("Why.\n\n--- a/{FILE}\n+++ b/{FILE}\n{hunks}")
    }

    fn applied(hunks: &str) -> Result<String, String> {
        apply(&diff(hunks), TEXT)
    }

    #[test]
    fn the_patch_changes_one_line() {
        let published = fs::read_to_string(published()).expect("the published text");
        let patched = qspi_spansion().expect("it applies");
        assert_eq!(published.lines().count(), patched.lines().count());
        let changed: Vec<(&str, &str)> =
            published.lines().zip(patched.lines()).filter(|(old, new)| old != new).collect();
        let [(old, new)] = changed[..] else { panic!("{changed:?}") };
        assert_eq!(old.trim(), "while read_index < data.len() as u32 {");
        assert_eq!(new.trim(), "while read_index < data.len() as u32 + 4 {");
    }

    #[test]
    fn hunks_stand_where_they_say() {
        assert_eq!(applied("@@ -2,2 +2,1 @@\n b\n-c\n"), Ok("a\nb\nd\ne\n".to_owned()));
        assert_eq!(
            applied("@@ -1,1 +1,2 @@ fn a\n a\n+x\n@@ -4,2 +5,2 @@\n d\n-e\n+y\n"),
            Ok("a\nx\nb\nc\nd\ny\n".to_owned())
        );
        for elsewhere in ["@@ -1,2 +1,1 @@\n b\n-c\n", "@@ -2,2 +3,1 @@\n b\n-c\n", "@@ -9,1 +9,1 @@\n-b\n+x\n"] {
            assert!(applied(elsewhere).is_err(), "{elsewhere}");
        }
    }

    #[test]
    fn every_line_must_be_there() {
        let bad = [
            // Another line kept, another one taken out, one with another end, and one more than there is.
            "@@ -2,2 +2,1 @@\n x\n-c\n",
            "@@ -2,2 +2,1 @@\n b\n-x\n",
            "@@ -2,2 +2,1 @@\n b\n-c \n",
            "@@ -5,2 +5,1 @@\n e\n-f\n",
        ];
        for hunk in bad {
            assert!(applied(hunk).is_err(), "{hunk}");
        }
        assert!(apply(&diff("@@ -2,2 +2,1 @@\n b\n-c\n"), "a\nb\n\nd\n").is_err());
    }

    #[test]
    fn a_patch_that_is_no_such_diff_is_refused() {
        let bad = [
            "",
            "b\n",
            "@@ -2 +2 @@\n-b\n+x\n",
            "@@ -0,1 +0,1 @@\n-a\n+x\n",
            "@@ -2,3 +2,1 @@\n b\n-c\n",
            "@@ -2,2 +2,2 @@\n b\n-c\n",
            "@@ -2,2 +2,1 @@\n b\n-c\n\n",
            "@@ -2,2 +2,1 @@\n b\n-c\n\\ No newline at end of file\n",
        ];
        for hunks in bad {
            assert!(applied(hunks).is_err(), "{hunks}");
        }
        assert!(apply(&diff("@@ -2,1 +2,1 @@\n-b\n+x\n").replace("a/zed", "a/red"), TEXT).is_err());
    }

    #[test]
    fn hunks_come_in_order() {
        assert!(applied("@@ -4,1 +4,1 @@\n-d\n+x\n@@ -2,1 +2,1 @@\n-b\n+y\n").is_err());
    }
}
