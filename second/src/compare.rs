//! "other nights are run against an independent second program": the sheets of kept nights
//! are compared with what is expected of them, byte for byte.

use std::fs;
use std::io::{self, Write};
use std::path::{Path, PathBuf};

use crate::files::{read, with_path, NightFiles};
use crate::sheet::sheet_of_folder;
use crate::text::pack;

const EXPECTED: &str = "expected";
const TEXT: &str = "night.txt";

/// Compares every night below a folder; tells whether there was one and none failed.
pub fn compare(nights: &Path, out: &mut impl Write) -> io::Result<bool> {
    let (mut passed, mut failed) = (0u64, 0u64);
    for folder in folders_below(nights)? {
        let mut outcomes = vec![compare_sheet(&folder)];
        if folder.join(TEXT).exists() {
            outcomes.push(compare_text(&folder));
        }
        for outcome in outcomes {
            match outcome {
                Ok(()) => passed += 1,
                Err(difference) => {
                    failed += 1;
                    writeln!(out, "{}: {difference}", folder.display())?;
                }
            }
        }
    }
    writeln!(out, "{passed} passed, {failed} failed")?;
    Ok(passed > 0 && failed == 0)
}

pub(crate) fn folders_below(nights: &Path) -> io::Result<Vec<PathBuf>> {
    let entries = fs::read_dir(nights)
        .and_then(|entries| entries.collect::<io::Result<Vec<_>>>())
        .map_err(|error| with_path(nights, error))?;
    let mut folders: Vec<PathBuf> = entries
        .into_iter()
        .map(|entry| entry.path())
        .filter(|path| path.is_dir())
        .collect();
    folders.sort();
    Ok(folders)
}

/// The sheet of a night must be its expected one; else the first differing line.
fn compare_sheet(folder: &Path) -> Result<(), String> {
    let expected = read(&folder.join(EXPECTED)).map_err(|error| error.to_string())?;
    let mut got = Vec::new();
    sheet_of_folder(folder, &mut got).map_err(|error| error.to_string())?;
    match first_difference(&expected, &got) {
        None => Ok(()),
        Some((line, expected, got)) => {
            Err(format!("sheet line {line}: expected {expected}, got {got}"))
        }
    }
}

/// The number of the first differing line, with what is expected there and what was got.
pub(crate) fn first_difference(expected: &[u8], got: &[u8]) -> Option<(usize, String, String)> {
    let mut expected = expected.split_inclusive(|byte| *byte == b'\n');
    let mut got = got.split_inclusive(|byte| *byte == b'\n');
    for line in 1.. {
        let (wanted, found) = (expected.next(), got.next());
        if wanted != found {
            return Some((line, quoted(wanted), quoted(found)));
        }
        if wanted.is_none() {
            break;
        }
    }
    None
}

fn quoted(line: Option<&[u8]>) -> String {
    match line {
        None => "no line".to_string(),
        Some(line) => format!("{:?}", String::from_utf8_lossy(line)),
    }
}

/// The text of a night must give exactly its three files.
fn compare_text(folder: &Path) -> Result<(), String> {
    let text = read(&folder.join(TEXT)).map_err(|error| error.to_string())?;
    let packed = pack(&text).map_err(|bad| format!("{TEXT}:{bad}"))?;
    let files = NightFiles::read(folder).map_err(|error| error.to_string())?;
    for ((name, expected), (_, got)) in files.named().into_iter().zip(packed.named()) {
        if expected != got {
            return Err(first_differing_byte(name, expected, got));
        }
    }
    Ok(())
}

fn first_differing_byte(name: &str, expected: &[u8], got: &[u8]) -> String {
    let same = expected
        .iter()
        .zip(got)
        .take_while(|(expected, got)| expected == got)
        .count();
    let shown = |bytes: &[u8]| bytes.get(same).map_or("none".to_string(), u8::to_string);
    format!(
        "{TEXT} gives another {name} at byte {same}: expected {}, got {}",
        shown(expected),
        shown(got)
    )
}
