//! "Left to others: the arbiter's own circuit, the clock": which rack takes the next turn.

use crate::night::Night;
use crate::random::Random;

/// An order of turns.
#[derive(Clone, Copy, Debug, PartialEq, Eq)]
pub enum Schedule {
    RoundRobin,
    Solo,
    Bursts,
    Lockstep,
    AnyOrder,
}

impl Schedule {
    pub const ALL: [Schedule; 5] = [
        Schedule::RoundRobin,
        Schedule::Solo,
        Schedule::Bursts,
        Schedule::Lockstep,
        Schedule::AnyOrder,
    ];

    /// The schedule whose turn it is: each once in as many seeds in a row.
    pub fn in_turn(seed: u64) -> Schedule {
        Schedule::ALL[(seed % Schedule::ALL.len() as u64) as usize]
    }

    pub fn name(self) -> &'static str {
        match self {
            Schedule::RoundRobin => "round-robin",
            Schedule::Solo => "solo",
            Schedule::Bursts => "bursts",
            Schedule::Lockstep => "lockstep",
            Schedule::AnyOrder => "any-order",
        }
    }
}

/// A schedule under way: the rack of the last turn, and how many more it has in a row.
pub struct Scheduler {
    schedule: Schedule,
    rack: usize,
    left: usize,
}

impl Scheduler {
    pub fn new(schedule: Schedule) -> Scheduler {
        Scheduler {
            schedule,
            rack: 0,
            left: 0,
        }
    }

    /// The next of the racks that are awake, if any is.
    pub fn next_rack(
        &mut self,
        night: &Night,
        awake: &[usize],
        random: &mut Random,
    ) -> Option<usize> {
        let steps = night.sizes().steps_of_round();
        self.rack = match self.schedule {
            Schedule::RoundRobin => next_in_turn(self.rack, awake)?,
            Schedule::Solo => {
                let turns = steps * random.between(1, 3);
                self.run_on(awake, turns, random)?
            }
            Schedule::Bursts => {
                let turns = random.between(1, 2 * steps);
                self.run_on(awake, turns, random)?
            }
            Schedule::Lockstep => random.pick(&furthest_behind(night, awake))?,
            Schedule::AnyOrder => random.pick(awake)?,
        };
        Some(self.rack)
    }

    /// The same rack again while its run lasts, else another one for so many turns.
    fn run_on(&mut self, awake: &[usize], turns: usize, random: &mut Random) -> Option<usize> {
        if self.left == 0 || !awake.contains(&self.rack) {
            self.left = turns;
            self.rack = random.pick(awake)?;
        }
        self.left -= 1;
        Some(self.rack)
    }
}

fn next_in_turn(last: usize, awake: &[usize]) -> Option<usize> {
    let later = awake.iter().find(|rack| **rack > last);
    later.or(awake.first()).copied()
}

/// The awake racks with the fewest steps behind them.
fn furthest_behind(night: &Night, awake: &[usize]) -> Vec<usize> {
    let behind = |rack: &usize| {
        let rack = &night.racks()[*rack];
        (rack.round, rack.step)
    };
    let least = awake.iter().map(behind).min();
    let is_least = |rack: &usize| Some(behind(rack)) == least;
    awake.iter().copied().filter(is_least).collect()
}
