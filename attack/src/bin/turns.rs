//! What one public turn costs, the soundness test and all.
//!
//! `turns cases FILE SEED COUNT` writes a file of so many turns of one night of the largest size,
//! spread over the whole night, each with its tables.
//!
//! `turns WHICH FILE` reads such a file, makes each program's form of every case, then goes through
//! the cases in order and calls nothing (`none`), `night_turn` (`card`) or the second program's
//! `Night::turn` (`second`) on each, in place, and prints the sum of the reply numbers. All but the
//! call is the same, so instructions with `card` less those with `none` are the card's calls.
//!
//! Counted of the card: the tests of sizes and lengths, the soundness test, the turn, and the
//! copies of the racks, which go in and come back by value. Counted of the second program: the
//! soundness test and the turn on a `Night`; its tests of sizes and lengths are in `Night::lent`,
//! which makes the `Night` before the loop.

use std::env;
use std::fs::{self, File};
use std::io::{self, BufWriter, Write};
use std::path::Path;
use std::process::ExitCode;

use attack::card::{self, Lent};
use attack::turn_cases::{read_cases, write_cases, TurnCase};
use second::files::with_path;
use second::refusal::number;

const USAGE: &str = "usage: turns none|card|second FILE | turns cases FILE SEED COUNT";

/// Which program is called on each case.
#[derive(Clone, Copy)]
enum Which {
    None,
    Card,
    Second,
}

fn main() -> ExitCode {
    let arguments: Vec<String> = env::args().skip(1).collect();
    let words: Vec<&str> = arguments.iter().map(String::as_str).collect();
    let done = match words.as_slice() {
        ["none", file] => measure(Which::None, Path::new(file)),
        ["card", file] => measure(Which::Card, Path::new(file)),
        ["second", file] => measure(Which::Second, Path::new(file)),
        ["cases", file, seed, count] => match (seed.parse(), count.parse()) {
            (Ok(seed), Ok(count)) => write_file(Path::new(file), seed, count),
            _ => return end(USAGE, 2),
        },
        _ => return end(USAGE, 2),
    };
    match done {
        Ok(()) => ExitCode::SUCCESS,
        Err(error) => end(&error.to_string(), 1),
    }
}

/// Ends with one line on standard error.
fn end(line: &str, status: u8) -> ExitCode {
    eprintln!("{line}");
    ExitCode::from(status)
}

fn write_file(path: &Path, seed: u64, count: usize) -> io::Result<()> {
    let write = || {
        let mut out = BufWriter::new(File::create(path)?);
        write_cases(seed, count, &mut out)?;
        out.flush()
    };
    write().map_err(|error| with_path(path, error))
}

fn measure(which: Which, path: &Path) -> io::Result<()> {
    let cases = fs::read(path).and_then(|bytes| read_cases(&bytes));
    let mut cases = cases.map_err(|error| with_path(path, error))?;
    let mut sum = 0u64;
    for case in &mut cases {
        sum += u64::from(match which {
            Which::None => 0,
            Which::Card => card_turn(case),
            Which::Second => number(&case.night.turn(&case.record)),
        });
    }
    println!("{sum}");
    Ok(())
}

fn card_turn(case: &mut TurnCase) -> u8 {
    let tables = &mut case.tables;
    let mut lent = Lent {
        cells: &mut tables.cells,
        logs: &mut tables.logs,
        decisions: &mut tables.decisions,
    };
    card::turn(tables.sizes, &mut lent, &mut tables.racks, &case.record)
}
