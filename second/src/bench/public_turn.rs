//! What one call of the public turn costs, the soundness test and all, on the largest tables.

use std::io::{self, Write};

use crate::sizes::Sizes;

use super::measure::Program;
use super::tables::{beside, grouped, share, Table};
use super::{Bench, Pair};

impl Bench<'_> {
    pub fn public_turn(&self, out: &mut impl Write) -> io::Result<()> {
        let Some(turns) = &self.programs.turns else {
            return writeln!(out, "\nPublic turn: skipped, as TURNS was not given");
        };
        let cases = self.plan.cases;
        let calls = self.count_calls(turns)?;
        let calls = Pair {
            proved: share(calls.proved, cases),
            second: share(calls.second, cases),
        };
        let sizes = Sizes::LARGEST;
        let sizes = [sizes.racks(), sizes.lanes(), sizes.rounds()].map(|size| size as u64);
        let given = sizes.into_iter().chain([cases]).map(grouped);
        let mut table = Table::new(&["n", "k", "R", "calls", "card", "second", "ratio", "bar"]);
        table.row(given.chain(beside(calls)).collect());
        table.print("Public turn: instructions for each call", out)
    }

    /// The instructions of all calls: those of a run with them, less those of one without.
    fn count_calls(&self, turns: &Program) -> io::Result<Pair<u64>> {
        let file = self.scratch.join("cases");
        let (seed, cases) = (self.plan.seed.to_string(), self.plan.cases.to_string());
        let maker = turns.clone().with("cases").with(&file);
        maker.with(seed).with(cases).output(self.scratch)?;
        let calling = |which: &str| turns.clone().with(which).with(&file);
        let with = Pair {
            proved: calling("card"),
            second: calling("second"),
        };
        let replies = with.each(|program| program.output(self.scratch))?;
        if replies.proved != replies.second {
            return Err(io::Error::other("public turn: the replies differ"));
        }
        let count = |program: &Program| self.valgrind().instructions(program, self.scratch);
        let without = count(&calling("none"))?;
        with.each(|program| {
            let calls = count(program)?.checked_sub(without);
            calls.ok_or_else(|| io::Error::other("public turn: calls without instructions"))
        })
    }
}
