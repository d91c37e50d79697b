//! The whole table under attack: the proved card against the second program.
//!
//! `attack SEED COUNT` makes cases from the seed until at least COUNT tables were tried, prints
//! how many of each sort there were and how many calls got each number, and in the last line how
//! many tables passed. The same seed makes the same run. Each difference is told with the seed
//! of its case, the call, the sizes, and the first differing byte. Exit status 1 on a difference,
//! and when a refusal number, a size or a sort of table never came up.
//!
//! `attack case SEED` makes that one case again, and adds to each difference the call as a line
//! that `second check-turns` reads.
//!
//! With ATTACK_TELL set, `attack SEED COUNT` tells each case before it is made, so that one that
//! ends the program is known too.

use std::env;
use std::process::ExitCode;

use attack::case::{run, Outcome};
use attack::tally::Tally;
use second::random::Random;

const USAGE: &str = "usage: attack SEED COUNT | attack case SEED";

/// After so many differences the rest would tell nothing new.
const MOST_TOLD: u64 = 10;

fn main() -> ExitCode {
    let arguments: Vec<String> = env::args().skip(1).collect();
    let words: Vec<&str> = arguments.iter().map(String::as_str).collect();
    let outcome = match words.as_slice() {
        ["case", seed] => seed.parse().ok().map(one_case),
        [seed, count] => seed
            .parse()
            .ok()
            .zip(count.parse().ok())
            .map(|(seed, count)| attack(seed, count)),
        _ => None,
    };
    match outcome {
        Some(true) => ExitCode::SUCCESS,
        Some(false) => ExitCode::FAILURE,
        None => {
            eprintln!("{USAGE}");
            ExitCode::from(2)
        }
    }
}

/// Cases until so many tables were tried; tells whether all passed and nothing was missing.
fn attack(seed: u64, count: u64) -> bool {
    let tells = env::var_os("ATTACK_TELL").is_some();
    println!("seed {seed}, at least {count} tables");
    let mut seeds = Random::new(seed);
    let mut tally = Tally::default();
    let (mut cases, mut failed_tables, mut failed) = (0u64, 0, 0);
    while tally.tables() < count && failed < MOST_TOLD {
        let case = seeds.draw();
        if tells {
            println!("case {case}");
        }
        let outcome = run(case, &mut tally);
        cases += 1;
        failed_tables += outcome.failed_tables;
        failed += outcome.differences.len() as u64;
        tell(case, &outcome, false);
    }
    println!("{cases} cases");
    print!("{tally}");
    if failed == 0 {
        let missing = tally.missing();
        failed += missing.len() as u64;
        for what in missing {
            println!("{what}");
        }
    }
    println!("{} passed, {failed} failed", tally.tables() - failed_tables);
    failed == 0
}

/// One case again; tells whether it passed.
fn one_case(seed: u64) -> bool {
    let mut tally = Tally::default();
    let outcome = run(seed, &mut tally);
    tell(seed, &outcome, true);
    let failed = outcome.differences.len();
    print!("{tally}");
    println!(
        "{} passed, {failed} failed",
        tally.tables() - outcome.failed_tables
    );
    failed == 0
}

fn tell(case: u64, outcome: &Outcome, with_line: bool) {
    for (sort, difference) in &outcome.differences {
        let on = sort.map_or(String::new(), |sort| {
            format!(", sort of table: {}", sort.name())
        });
        println!("difference in case {case}: {}{on}", difference.call);
        println!("  given {}", difference.given);
        println!("  {}", difference.what);
        if let (true, Some(line)) = (with_line, &difference.line) {
            println!("  {line}");
        }
    }
}
