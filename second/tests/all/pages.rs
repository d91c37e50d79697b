//! What the pages say of the proved crates, read as text: names in backquotes, links, and what a file declares.

use std::collections::BTreeSet;
use std::fs;
use std::path::{Path, PathBuf};

pub type Names = BTreeSet<String>;

pub fn path(inside: &str) -> PathBuf {
    Path::new(env!("CARGO_MANIFEST_DIR"))
        .join("..")
        .join(inside)
}

pub fn read(inside: &str) -> String {
    fs::read_to_string(path(inside)).unwrap_or_else(|e| panic!("{inside}: {e}"))
}

/// The names in a folder; none if it is not there.
pub fn folder(inside: &str) -> Vec<String> {
    let entries = fs::read_dir(path(inside)).into_iter().flatten();
    entries
        .map(|e| e.unwrap().file_name().into_string().unwrap())
        .collect()
}

/// The files below a folder with this ending, but for what a check keeps: copies of proof files in a crate's `out`.
pub fn files_below(inside: &str, ending: &str) -> Vec<String> {
    let mut found = Vec::new();
    for name in folder(inside) {
        let below = format!("{inside}/{name}");
        if path(&below).is_dir() {
            if name != "out" {
                found.extend(files_below(&below, ending));
            }
        } else if name.ends_with(ending) {
            found.push(below);
        }
    }
    found
}

/// What stands in backquotes, from left to right.
pub fn quoted_in_order(text: &str) -> Vec<String> {
    let quoted = text.split('`').skip(1).step_by(2);
    quoted.map(str::to_string).collect()
}

pub fn quoted(text: &str) -> Names {
    quoted_in_order(text).into_iter().collect()
}

/// Where the links of a text lead, as it stands in them.
pub fn targets(text: &str) -> Vec<&str> {
    let behind = text.split("](").skip(1);
    behind.filter_map(|to| to.split(')').next()).collect()
}

/// The files in the repository that a page of `docs` links.
pub fn links(text: &str) -> Vec<String> {
    let inside = targets(text)
        .into_iter()
        .filter_map(|to| to.strip_prefix("../"));
    inside.map(str::to_string).collect()
}

/// What a line of a proof file declares, with `pub` or another such word before it.
fn declares(line: &str) -> Option<&str> {
    let before = ["pub", "abbrev", "unfoldable", "record", "data"];
    let mut words = line.split_whitespace().skip_while(|w| before.contains(w));
    let name = words.next()?;
    let declared = line.contains(" record ") || words.next() == Some(":");
    declared.then_some(name)
}

/// The names that a proof file declares, or all proof files of a folder.
pub fn declared(inside: &str) -> Names {
    let files = if path(inside).is_dir() {
        files_below(inside, ".antt")
    } else {
        vec![inside.to_string()]
    };
    let texts: Vec<String> = files.iter().map(|file| read(file)).collect();
    let lines = texts.iter().flat_map(|text| text.lines());
    lines.filter_map(declares).map(str::to_string).collect()
}

/// The theorems of a file: what stands in `proofs` and is no definition.
pub fn proved(inside: &str) -> Names {
    if !inside.contains("/proofs/") {
        return Names::new();
    }
    let defines = |line: &&str| {
        let mut words = line.split_whitespace();
        words.any(|word| ["abbrev", "unfoldable", "record", "data"].contains(&word))
    };
    let text = read(inside);
    let lines = text.lines().filter(|line| !defines(line));
    lines.filter_map(declares).map(str::to_string).collect()
}

/// The fields of a record in a proof file.
pub fn fields(inside: &str, record: &str) -> Names {
    let text = read(inside);
    let head = format!("pub record {record} ");
    let mut lines = text
        .lines()
        .skip_while(|line| !line.trim_start().starts_with(&head));
    let depth = |line: &str| line.len() - line.trim_start().len();
    let at = lines
        .next()
        .map(depth)
        .unwrap_or_else(|| panic!("{record} in {inside}"));
    lines
        .take_while(|line| depth(line) > at)
        .filter(|line| depth(line) == at + 2)
        .filter_map(|line| declares(line.trim_start()))
        .map(str::to_string)
        .collect()
}

/// A crate's must-fail edits, as `fresh/decisions_zero`.
pub fn edits(name: &str) -> Names {
    let files = folder(&format!("crates/{name}/must-fail"));
    let edits = files.iter().filter_map(|file| file.strip_suffix(".edit"));
    edits.map(|edit| format!("{name}/{edit}")).collect()
}
