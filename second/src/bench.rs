//! A benchmark: the proved program and this one side by side in one run, as tables of wall clock,
//! instructions, growth, the public turn and memory.

mod growth;
mod held;
pub mod measure;
pub mod nights;
mod parts;
mod public_turn;
pub mod tables;

use std::io::{self, Write};
use std::path::Path;

use crate::scratch::Scratch;

use measure::{Program, Valgrind};
use nights::refused_night;

/// The same thing of the proved program and of the second one.
#[derive(Clone, Copy, Debug, PartialEq, Eq)]
pub struct Pair<Thing> {
    pub proved: Thing,
    pub second: Thing,
}

impl<Thing> Pair<Thing> {
    fn each<Other>(
        &self,
        measure: impl Fn(&Thing) -> io::Result<Other>,
    ) -> io::Result<Pair<Other>> {
        Ok(Pair {
            proved: measure(&self.proved)?,
            second: measure(&self.second)?,
        })
    }
}

/// The programs that are measured.
#[derive(Clone, Debug)]
pub struct Programs {
    /// Each prints the sheet of the three files in its working folder.
    pub sheets: Pair<Program>,
    /// Makes cases of the public turn, and calls none, the proved or the second one on each.
    pub turns: Option<Program>,
}

/// Whole nights of sizes n, k and R, of which one grows.
#[derive(Clone, Copy, Debug)]
pub struct Growth<'a> {
    pub name: &'a str,
    pub sizes: &'a [[u64; 3]],
}

/// How much is measured.
#[derive(Clone, Copy, Debug)]
pub struct Plan<'a> {
    /// Runs of each program whose median is the wall clock.
    pub runs: usize,
    pub refused_turns: usize,
    pub growths: &'a [Growth<'a>],
    /// The seed and the number of the public turn's cases.
    pub seed: u64,
    pub cases: u64,
    pub valgrind: &'a str,
}

impl Plan<'static> {
    pub const WHOLE: Plan<'static> = Plan {
        runs: 20,
        refused_turns: 2_000_000,
        growths: &[
            Growth {
                name: "n",
                sizes: &[[1, 4, 64], [2, 4, 64], [4, 4, 64], [8, 4, 64]],
            },
            Growth {
                name: "k",
                sizes: &[[8, 1, 64], [8, 2, 64], [8, 4, 64]],
            },
            Growth {
                name: "R",
                sizes: &[[8, 4, 1], [8, 4, 4], [8, 4, 16], [8, 4, 64]],
            },
        ],
        seed: 1,
        cases: 200,
        valgrind: "valgrind",
    };
}

/// Measures both programs on a night and on made ones, and prints each table when it is done.
pub fn bench(
    programs: &Programs,
    night: &Path,
    plan: &Plan,
    out: &mut impl Write,
) -> io::Result<()> {
    let scratch = Scratch::new()?;
    let bench = Bench {
        programs,
        plan,
        scratch: scratch.folder(),
    };
    let night = bench.kept(night)?;
    let refused = bench.made("refused turns", &refused_night(plan.refused_turns))?;
    writeln!(
        out,
        "A night is measured once both programs have printed the same bytes on it."
    )?;
    if cfg!(debug_assertions) {
        writeln!(out, "second is a debug build: build it with --release.")?;
    }
    // The wall clock comes first, as all the rest needs valgrind.
    bench.wall_clock(&[&night, &refused], out)?;
    bench.instructions(&[&night, &refused], out)?;
    bench.growths(out)?;
    bench.public_turn(out)?;
    bench.memory(&night, out)
}

/// A benchmark under way, with a folder for what it makes.
struct Bench<'a> {
    programs: &'a Programs,
    plan: &'a Plan<'a>,
    scratch: &'a Path,
}

impl Bench<'_> {
    fn valgrind(&self) -> Valgrind<'_> {
        Valgrind {
            command: self.plan.valgrind,
            folder: self.scratch,
        }
    }
}
