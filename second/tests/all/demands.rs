//! The pages against the text of the proved crates: what a page says stands in a file is declared there, docs/DEMANDS.md names every field of the
//! demands and of what fails them and no other, and every link leads somewhere.

use crate::pages::{
    declared, fields, files_below, folder, links, path, quoted, quoted_in_order, read, targets,
    Names,
};

const DEMANDS: &str = "crates/night/specs/Demands.antt";
const REFUTED: &str = "crates/night/proofs/Refuted.antt";

/// The records of the demands, each with its file.
const RECORDS: [(&str, &str); 6] = [
    ("Demand2", DEMANDS),
    ("Demand3", DEMANDS),
    ("AdoptCommit", DEMANDS),
    ("VectorConsensus", DEMANDS),
    ("Fits", DEMANDS),
    ("NoneMeets", REFUTED),
];

/// All pages, with the folder that their links start from.
fn pages() -> Vec<(String, String)> {
    let mut pages = vec!["README.md".to_string(), "CONTRIBUTING.md".to_string()];
    for inside in ["docs", "nights", "attack", "examples"] {
        let below = files_below(inside, ".md");
        pages.extend(below.into_iter().filter(|page| !page.contains("/target/")));
    }
    let from = |page: &String| {
        page.rsplit_once('/')
            .map_or(".", |(from, _)| from)
            .to_string()
    };
    pages.into_iter().map(|page| (from(&page), page)).collect()
}

/// A heading as a link names it.
fn anchor(heading: &str) -> String {
    let kept = heading.to_lowercase();
    let kept = kept.trim_start_matches(['#', ' ']).replace(' ', "-");
    kept.chars()
        .filter(|c| c.is_alphanumeric() || *c == '-')
        .collect()
}

#[test]
fn every_link_leads_somewhere() {
    let mut count = 0;
    for (from, page) in pages() {
        let text = read(&page);
        for target in targets(&text) {
            let (file, place) = target.split_once('#').unwrap_or((target, ""));
            let to = if file.is_empty() {
                page.clone()
            } else {
                format!("{from}/{file}")
            };
            assert!(path(&to).exists(), "{target} in {page}");
            let is_there = |text: &str| {
                let mut headings = text.lines().filter(|line| line.starts_with('#'));
                headings.any(|heading| anchor(heading) == place)
            };
            assert!(
                place.is_empty() || is_there(&read(&to)),
                "{target} in {page}"
            );
            count += 1;
        }
    }
    assert!(count > 100, "{count} links");
}

#[test]
fn every_path_into_the_crates_is_there() {
    for (_, page) in pages() {
        let text = read(&page);
        let paths = quoted(&text).into_iter();
        for inside in paths.filter(|name| name.starts_with("crates/")) {
            assert!(path(&inside).exists(), "{inside} in {page}");
        }
    }
}

/// The table of rules in CONTRIBUTING.md: a name stands in the folder of the one before it.
#[test]
fn every_file_that_a_rule_reaches_is_there() {
    let page = read("CONTRIBUTING.md");
    let table = page
        .split("\n## ")
        .find(|part| part.starts_with("To change a rule"));
    let rows = table
        .unwrap()
        .lines()
        .filter(|line| line.starts_with("| "))
        .skip(1);
    let crates = folder("crates");
    let is_crate = |name: &str| crates.iter().any(|of| of == name);
    let mut count = 0;
    for row in rows {
        let columns: Vec<&str> = row.trim_matches(['|', ' ']).split(" | ").collect();
        for file in quoted(columns[1]) {
            let file = format!("crates/model/specs/{file}.antt");
            assert!(path(&file).is_file(), "{file}: {row}");
        }
        for code in quoted(columns[2]) {
            assert!(is_crate(code.split("::").next().unwrap()), "{code}: {row}");
        }
        let (mut of, mut before) = (String::new(), String::new());
        for name in quoted_in_order(columns[3]) {
            let inside = match name.split_once('/') {
                Some((first, _)) if is_crate(first) => name.clone(),
                Some(_) => format!("{of}/{name}"),
                None if is_crate(&name) => name.clone(),
                None => format!("{before}/{name}"),
            };
            let file = format!("crates/{inside}.antt");
            let is_there = path(&file).is_file() || path(&format!("crates/{inside}")).is_dir();
            assert!(is_there, "{inside}: {row}");
            of = inside.split('/').next().unwrap().to_string();
            before = inside
                .rsplit_once('/')
                .map_or(&inside[..], |(before, _)| before)
                .to_string();
            count += 1;
        }
    }
    assert!(count > 20, "{count} files");
}

/// The names in backquotes that a text ends with, as "`a`, `b` and `c`".
fn names_at_end(mut text: &str) -> Names {
    let mut names = Names::new();
    while let Some((before, name)) = text
        .strip_suffix('`')
        .and_then(|text| text.rsplit_once('`'))
    {
        names.insert(name.to_string());
        let joined = [" and ", ", and ", ", "]
            .iter()
            .find_map(|word| before.strip_suffix(word));
        text = joined.unwrap_or_default();
    }
    names
}

/// A place to look in: a proof file, or a folder of them.
fn is_proofs(inside: &str) -> bool {
    inside.starts_with("crates/") && (inside.ends_with(".antt") || path(inside).is_dir())
}

/// "`a` and `b` in [X](../crates/..)" or "in `crates/..`": the names, and where they are said to stand.
fn said_to_stand(text: &str) -> Vec<(Names, String)> {
    let mut said = Vec::new();
    for (at, _) in text.match_indices(" in ") {
        let (before, behind) = (&text[..at], &text[at + " in ".len()..]);
        let place = if behind.starts_with('[') {
            targets(behind)
                .first()
                .map(|to| to.trim_start_matches("../"))
        } else {
            behind
                .strip_prefix('`')
                .and_then(|behind| behind.split('`').next())
        };
        if let Some(place) = place.filter(|place| is_proofs(place)) {
            said.push((names_at_end(before), place.to_string()));
        }
    }
    said
}

#[test]
fn what_a_page_says_stands_in_a_file_is_declared_there() {
    let mut count = 0;
    for (_, page) in pages() {
        for (names, place) in read(&page).lines().flat_map(said_to_stand) {
            // An edit stands beside the proofs of its crate.
            let edits = folder(&place).into_iter();
            let edits: Names = edits
                .filter_map(|f| Some(f.strip_suffix(".edit")?.to_string()))
                .collect();
            let missing = &(&names - &declared(&place)) - &edits;
            assert_eq!(missing, Names::new(), "{place} by {page}");
            count += names.len();
        }
    }
    assert!(count > 30, "{count} names");
}

/// The fields of a record of the demands.
fn fields_of(record: &str) -> Option<Names> {
    let of = RECORDS.iter().find(|(name, _)| *name == record)?;
    Some(fields(of.1, record))
}

/// The record whose fields a heading announces: "Field of `Demand3`", or of a theorem that is one.
fn announced(heading: &str) -> Option<Names> {
    let name = heading.split_once("Field of `")?.1.split('`').next()?;
    let proved = format!("\npub {name} : ");
    let text = read(REFUTED);
    let record = text
        .split_once(&proved)
        .map_or(name, |(_, behind)| behind.split('\n').next().unwrap());
    Some(fields_of(record).unwrap_or_else(|| panic!("{record}")))
}

/// Nothing but names: "`a`, `b`", with "there" or without.
fn bare_names(cell: &str) -> Option<Names> {
    let names = cell.trim().trim_end_matches(", there");
    let between: Vec<&str> = names.split('`').step_by(2).collect();
    let bare = between.iter().all(|word| ["", ", "].contains(word));
    (bare && names.contains('`')).then(|| quoted(names))
}

/// The second column of docs/DEMANDS.md, cell by cell: names stand in the record or file that was named last.
#[test]
fn the_demands_name_what_is_declared() {
    let everywhere = declared("crates");
    let mut scope = Names::new();
    let mut count = 0;
    for line in read("docs/DEMANDS.md").lines() {
        if let Some(file) = links(line).into_iter().rfind(|to| is_proofs(to)) {
            scope = declared(&file);
        }
        let Some(cell) = line
            .strip_prefix("| ")
            .and_then(|row| row.split(" | ").nth(1))
        else {
            continue;
        };
        if let Some(fields) = announced(cell) {
            scope = fields;
            continue;
        }
        for (before, behind) in cell
            .match_indices(" in `")
            .map(|(at, word)| (&cell[..at], &cell[at + word.len()..]))
        {
            if let Some(fields) = behind.split('`').next().and_then(fields_of) {
                assert_eq!(&names_at_end(before) - &fields, Names::new(), "{line}");
            }
        }
        let names = if let Some((_, behind)) = cell.split_once("the record `") {
            let (record, behind) = behind.split_once('`').unwrap();
            scope = fields_of(record).unwrap_or_else(|| panic!("{record}"));
            behind.strip_prefix(": ").and_then(bare_names)
        } else {
            bare_names(cell)
        };
        let names = names.unwrap_or_default();
        assert_eq!(&names - &scope, Names::new(), "{line}");
        let is_name = |name: &String| name.chars().all(|c| c.is_alphanumeric() || c == '_');
        let others: Names = quoted(cell).into_iter().filter(is_name).collect();
        // A word of the language and a program are no names of a theorem.
        let words: Names = ["requires", "sheet"].map(str::to_string).into();
        assert_eq!(&(&others - &everywhere) - &words, Names::new(), "{line}");
        count += others.len();
    }
    assert!(count > 60, "{count} names");
}

#[test]
fn every_field_of_the_demands_is_named() {
    let named = quoted(&read("docs/DEMANDS.md"));
    for (record, file) in RECORDS.into_iter().filter(|(record, _)| *record != "Fits") {
        let fields = fields(file, record);
        assert!(fields.len() >= 4, "{record}: {fields:?}");
        assert_eq!(&fields - &named, Names::new(), "of {record}");
    }
}
