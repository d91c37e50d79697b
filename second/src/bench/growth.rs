//! How the cost grows with the turns: whole nights, of which one size grows.

use std::io::{self, Write};

use crate::sizes::Sizes;

use super::nights::whole_night;
use super::tables::{grouped, ratio, share, Table};
use super::{Bench, Growth, Pair};

/// For each program its instructions, those of a turn, and those of a turn more than above.
const COLUMNS: [&str; 11] = [
    "n", "k", "R", "turns", "sheet", "a turn", "further", "second", "a turn", "further", "ratio",
];

/// A night's turns, and the instructions of both programs on it.
#[derive(Clone, Copy)]
struct Counted {
    turns: u64,
    instructions: Pair<u64>,
}

impl Counted {
    /// The instructions for each turn that this night has more than another.
    fn further(&self, fewer: &Counted) -> Pair<u64> {
        let turns = self.turns.saturating_sub(fewer.turns);
        let each = |more: u64, less: u64| share(more.saturating_sub(less), turns);
        let (more, less) = (self.instructions, fewer.instructions);
        Pair {
            proved: each(more.proved, less.proved),
            second: each(more.second, less.second),
        }
    }
}

impl Bench<'_> {
    pub fn growths(&self, out: &mut impl Write) -> io::Result<()> {
        let mut further = Vec::new();
        for growth in self.plan.growths {
            further.extend(self.growth(growth, out)?);
        }
        writeln!(
            out,
            "\nA further turn costs sheet {} and second {} instructions: \
             as far as this is one number, the cost is linear in the turns.",
            from_least_to_most(further.iter().map(|further| further.proved)),
            from_least_to_most(further.iter().map(|further| further.second))
        )
    }

    /// Prints the table of one size that grows; hands back what further turns cost.
    fn growth(&self, growth: &Growth, out: &mut impl Write) -> io::Result<Vec<Pair<u64>>> {
        let mut table = Table::new(&COLUMNS);
        let mut costs = Vec::new();
        let mut above: Option<Counted> = None;
        for sizes in growth.sizes {
            let counted = self.count_whole_night(*sizes)?;
            let further = above.map(|above| counted.further(&above));
            table.row(row(*sizes, counted, further));
            costs.extend(further);
            above = Some(counted);
        }
        let heading = format!(
            "Growth with {}: instructions on nights of which every turn is taken",
            growth.name
        );
        table.print(&heading, out)?;
        Ok(costs)
    }

    fn count_whole_night(&self, sizes: [u64; 3]) -> io::Result<Counted> {
        let [racks, lanes, rounds] = sizes;
        let name = format!("whole night {racks} {lanes} {rounds}");
        let sizes = Sizes::new(racks, lanes, rounds)
            .map_err(|_| io::Error::other(format!("{name}: a size out of range")))?;
        let night = self.made(&name, &whole_night(sizes))?;
        Ok(Counted {
            turns: night.turns,
            instructions: self.count(&night)?,
        })
    }
}

fn row(sizes: [u64; 3], counted: Counted, further: Option<Pair<u64>>) -> Vec<String> {
    let Pair { proved, second } = counted.instructions;
    let further = |of: fn(Pair<u64>) -> u64| match further {
        Some(further) => grouped(of(further)),
        None => "-".to_string(),
    };
    let cells = [
        grouped(counted.turns),
        grouped(proved),
        grouped(share(proved, counted.turns)),
        further(|further| further.proved),
        grouped(second),
        grouped(share(second, counted.turns)),
        further(|further| further.second),
        ratio(proved, second),
    ];
    sizes.map(grouped).into_iter().chain(cells).collect()
}

fn from_least_to_most(costs: impl Iterator<Item = u64> + Clone) -> String {
    match (costs.clone().min(), costs.max()) {
        (Some(least), Some(most)) => format!("{} to {}", grouped(least), grouped(most)),
        _ => "-".to_string(),
    }
}
