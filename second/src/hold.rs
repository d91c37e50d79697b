//! "other nights are run against an independent second program": another program that prints
//! sheets is held to this one, byte for byte, on kept nights and on made ones.

use std::io::{self, Write};
use std::path::{Path, PathBuf};
use std::process::{Command, Output};

use crate::compare::{first_difference, folders_below};
use crate::files::with_path;
use crate::maker::{make, seeds, CYCLE};
use crate::scratch::Scratch;
use crate::seen::NightsSeen;
use crate::sheet::sheet_of_folder;

/// Runs a program on every night below a folder, then on nights made from `count` seeds, and
/// compares what it prints with the sheet; tells whether there was a night and none differed.
/// So many made nights as a cycle has must have had all that a night can have; the kept ones have
/// no say in that.
pub fn hold(
    program: &Path,
    nights: &Path,
    seed: u64,
    count: u64,
    out: &mut impl Write,
) -> io::Result<bool> {
    let mut held = Held {
        program: program
            .canonicalize()
            .map_err(|error| with_path(program, error))?,
        seen: NightsSeen::default(),
        passed: 0,
        failed: 0,
    };
    let (folders, seeds) = (folders_below(nights)?, seeds(seed, count)?);
    for folder in folders {
        held.night(&folder, &folder.display().to_string(), out)?;
    }
    let scratch = Scratch::new()?;
    for seed in seeds {
        let night = make(seed);
        night.files.write(scratch.folder(), night.empty)?;
        let sheet = held.night(scratch.folder(), &format!("seed {seed}"), out)?;
        held.seen.add(&sheet, night.summary.schedule);
    }
    writeln!(out, "seeds from {seed}, {count} of them")?;
    held.end(count, out)
}

/// A run under way.
struct Held {
    program: PathBuf,
    seen: NightsSeen,
    passed: u64,
    failed: u64,
}

impl Held {
    /// One night, told by its name where the program fails on it; hands back its sheet.
    fn night(&mut self, folder: &Path, name: &str, out: &mut impl Write) -> io::Result<Vec<u8>> {
        let mut expected = Vec::new();
        sheet_of_folder(folder, &mut expected)?;
        let got = Command::new(&self.program)
            .current_dir(folder)
            .output()
            .map_err(|error| with_path(&self.program, error))?;
        let failures = failures(&expected, &got);
        match failures.as_slice() {
            [] => self.passed += 1,
            _ => self.failed += 1,
        }
        for failure in failures {
            writeln!(out, "{name}: {failure}")?;
        }
        Ok(expected)
    }

    /// What came up in so many made nights, what never did if all had to, and the sum.
    fn end(&mut self, made: u64, out: &mut impl Write) -> io::Result<bool> {
        if made > 0 {
            write!(out, "{}", self.seen)?;
        }
        if made >= CYCLE {
            for line in self.seen.missing() {
                self.failed += 1;
                writeln!(out, "{line}")?;
            }
        } else if made > 0 {
            writeln!(
                out,
                "fewer than {CYCLE} made nights: what never came up is not asked for"
            )?;
        }
        let (passed, failed) = (self.passed, self.failed);
        writeln!(out, "{passed} passed, {failed} failed")?;
        Ok(passed > 0 && failed == 0)
    }
}

/// All that is wrong with a run of the program: another sheet, a status, a word of error.
fn failures(expected: &[u8], got: &Output) -> Vec<String> {
    let mut failures = Vec::new();
    if let Some((line, expected, got)) = first_difference(expected, &got.stdout) {
        failures.push(format!("sheet line {line}: expected {expected}, got {got}"));
    }
    if !got.status.success() {
        failures.push(format!("the program ended with {}", got.status));
    }
    if !got.stderr.is_empty() {
        let told = String::from_utf8_lossy(&got.stderr);
        failures.push(format!("told on standard error: {told:?}"));
    }
    failures
}

#[cfg(test)]
mod tests {
    use super::*;

    /// The end of a run in which one night passed and nothing that counts came up in so many made.
    fn end(made: u64) -> (bool, String) {
        let mut held = Held {
            program: PathBuf::new(),
            seen: NightsSeen::default(),
            passed: 1,
            failed: 0,
        };
        let mut out = Vec::new();
        let passed = held.end(made, &mut out).expect("bytes to write to");
        (passed, String::from_utf8(out).expect("text"))
    }

    #[test]
    fn what_never_came_up_is_a_failure_in_a_whole_cycle() {
        let (passed, told) = end(CYCLE);
        assert!(!passed);
        assert!(told.contains("\nnever came up: R = 37\n"), "{told}");
        assert!(told.ends_with("\n1 passed, 120 failed\n"), "{told}");
    }

    #[test]
    fn fewer_nights_need_not_have_all_and_say_so() {
        let (passed, told) = end(CYCLE - 1);
        assert!(passed);
        let last = "\nfewer than 512 made nights: what never came up is not asked for\n\
                    1 passed, 0 failed\n";
        assert!(told.ends_with(last), "{told}");
        assert_eq!(end(0), (true, "1 passed, 0 failed\n".to_string()));
    }
}
