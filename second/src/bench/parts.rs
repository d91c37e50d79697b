//! The parts that are measured on given nights: wall clock, instructions and memory.

use std::io::{self, Write};

use super::held::HeldNight;
use super::measure::median;
use super::tables::{beside, grouped, Table};
use super::{Bench, Pair};

/// The bytes that the proved program may have on its stack and heap together.
const MEMORY_BAR: u64 = 256 * 1024;

/// The columns of a table with a row for each night.
const OF_NIGHTS: [&str; 6] = ["night", "turns", "sheet", "second", "ratio", "bar"];

impl Bench<'_> {
    pub fn wall_clock(&self, nights: &[&HeldNight], out: &mut impl Write) -> io::Result<()> {
        let mut table = Table::new(&OF_NIGHTS);
        for night in nights {
            table.row(night_row(night, self.median_times(night)?));
        }
        let heading = format!(
            "Wall clock: microseconds, the median of {} runs, both programs in turn, output to null",
            self.plan.runs
        );
        table.print(&heading, out)
    }

    fn median_times(&self, night: &HeldNight) -> io::Result<Pair<u64>> {
        let mut times = Pair {
            proved: Vec::new(),
            second: Vec::new(),
        };
        for _ in 0..self.plan.runs {
            let sheets = &self.programs.sheets;
            let run = sheets.each(|sheet| sheet.microseconds(&night.folder))?;
            times.proved.push(run.proved);
            times.second.push(run.second);
        }
        times.each(|times| {
            median(times.clone()).ok_or_else(|| io::Error::other("no run, so no median"))
        })
    }

    pub fn instructions(&self, nights: &[&HeldNight], out: &mut impl Write) -> io::Result<()> {
        let mut table = Table::new(&OF_NIGHTS);
        for night in nights {
            table.row(night_row(night, self.count(night)?));
        }
        table.print("Instructions: one whole run of each program", out)
    }

    /// The instructions of one run of each program on a night.
    pub fn count(&self, night: &HeldNight) -> io::Result<Pair<u64>> {
        let sheets = &self.programs.sheets;
        sheets.each(|sheet| self.valgrind().instructions(sheet, &night.folder))
    }

    pub fn memory(&self, night: &HeldNight, out: &mut impl Write) -> io::Result<()> {
        let sheets = &self.programs.sheets;
        let peaks = sheets.each(|sheet| self.valgrind().peak(sheet, &night.folder))?;
        let mut table = Table::new(&["program", "stack", "heap", "together", "bar"]);
        let rows = [
            ("sheet", peaks.proved, grouped(MEMORY_BAR)),
            ("second", peaks.second, "-".to_string()),
        ];
        for (name, peak, bar) in rows {
            let [stack, heap, together] =
                [peak.stack, peak.heap, peak.stack + peak.heap].map(grouped);
            table.row(vec![name.to_string(), stack, heap, together, bar]);
        }
        let heading = format!("Memory: bytes at the peak of one run on {}", night.name);
        table.print(&heading, out)
    }
}

fn night_row(night: &HeldNight, measured: Pair<u64>) -> Vec<String> {
    let night = [night.name.clone(), grouped(night.turns)];
    night.into_iter().chain(beside(measured)).collect()
}
