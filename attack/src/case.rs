//! A case: all that is made from one number of 64 bits and given to both programs.

use second::night::Night;
use second::random::Random;
use second::sizes::{Sizes, MOST_LANES, MOST_RACKS, MOST_ROUNDS};

use crate::by_hand::by_hand;
use crate::judge::{self, Difference, Verdict};
use crate::lists::Lists;
use crate::plain;
use crate::played::{all_turns, Played};
use crate::records::{right, wrong};
use crate::spoil::{changed, length_off, other_sizes, record_changed, sizes_out_of_range};
use crate::tables::Tables;
use crate::tally::{Call, Sort, Tally};

/// What came of a case.
#[derive(Default)]
pub struct Outcome {
    /// Each difference, with the sort of table it was found on, if it was found on one.
    pub differences: Vec<(Option<Sort>, Box<Difference>)>,
    /// How many tables had a difference.
    pub failed_tables: u64,
}

/// Makes the case of a seed and gives it to both programs.
pub fn run(seed: u64, tally: &mut Tally) -> Outcome {
    let mut random = Random::new(seed);
    let sizes = make_sizes(&mut random);
    let mut case = Case {
        random,
        tally,
        outcome: Outcome::default(),
    };
    if case.random.one_in(2) {
        case.played(sizes);
    } else {
        case.by_hand(sizes);
    }
    case.other_calls(sizes);
    case.outcome
}

/// Every size, small ones more often: a large table takes as long as a hundred small ones.
fn make_sizes(random: &mut Random) -> Sizes {
    let [n, k, rounds] = match random.below(1_000) {
        0..=4 => [MOST_RACKS, MOST_LANES, MOST_ROUNDS],
        5..=44 => [MOST_RACKS, MOST_LANES, MOST_ROUNDS].map(|most| random.between(1, most)),
        45..=244 => [MOST_RACKS, MOST_LANES, 12].map(|most| random.between(1, most)),
        245..=499 => [MOST_RACKS, MOST_LANES, 3].map(|most| random.between(1, most)),
        _ => [3, 3, 5].map(|most| random.between(1, most)),
    };
    // All that are drawn are in range.
    Sizes::new(n as u64, k as u64, rounds as u64).unwrap_or(Sizes::LARGEST)
}

struct Case<'a> {
    random: Random,
    tally: &'a mut Tally,
    outcome: Outcome,
}

impl Case<'_> {
    /// A night stopped at random turns, more often a long one.
    fn played(&mut self, sizes: Sizes) {
        let turns = all_turns(sizes);
        let mut played = Played::new(sizes, &mut self.random);
        let count = 1 + (turns / 1_000).min(7);
        let mut stops: Vec<usize> = (0..count).map(|_| self.random.between(0, turns)).collect();
        stops.sort_unstable();
        let mut turn = 0;
        for stop in stops {
            while turn < stop && played.play(&mut self.random) {
                turn += 1;
            }
            self.table_and_spoiled(Sort::Reached, played.night());
        }
    }

    fn by_hand(&mut self, sizes: Sizes) {
        let tables = by_hand(sizes, &mut self.random);
        match tables.night() {
            Ok(night) => self.table_and_spoiled(Sort::ByHand, &night),
            // Its lengths are exact: the soundness test tells otherwise where it is given.
            Err(_) => self.table(Sort::ByHand, &tables, &[]),
        }
    }

    /// A sound table, and tables that are made from it.
    fn table_and_spoiled(&mut self, sort: Sort, night: &Night) {
        let tables = Tables::of(night);
        let records = [
            self.right(night),
            if self.random.one_in(2) {
                self.right(night)
            } else {
                wrong(night, &mut self.random)
            },
        ];
        self.table(sort, &tables, &records);
        for _ in 0..self.random.below(3) {
            let spoiled = changed(&tables, &mut self.random);
            self.spoiled_table(Sort::Changed, &spoiled, night);
        }
        for _ in 0..self.random.below(3) {
            let spoiled = record_changed(&tables, &mut self.random);
            self.spoiled_table(Sort::RecordChanged, &spoiled, night);
        }
        if self.random.one_in(6) {
            let spoiled = sizes_out_of_range(&tables, &mut self.random);
            self.spoiled_table(Sort::OutOfRange, &spoiled, night);
        }
        if self.random.one_in(8) {
            let spoiled = other_sizes(&tables, &mut self.random);
            self.spoiled_table(Sort::OtherSizes, &spoiled, night);
        }
        if self.random.one_in(6) {
            let spoiled = length_off(&tables, &mut self.random);
            self.spoiled_table(Sort::LengthOff, &spoiled, night);
        }
    }

    /// Mostly with a record that was right before the table was spoiled.
    fn spoiled_table(&mut self, sort: Sort, tables: &Tables, night: &Night) {
        let record = if self.random.one_in(6) {
            wrong(night, &mut self.random)
        } else {
            self.right(night)
        };
        self.table(sort, tables, &[record]);
    }

    fn right(&mut self, night: &Night) -> Vec<u8> {
        let rack = self.random.below(night.sizes().racks());
        right(night, rack, &mut self.random).to_vec()
    }

    /// One table: the soundness test, turns with these records, and log queries.
    fn table(&mut self, sort: Sort, tables: &Tables, records: &[Vec<u8>]) {
        self.tally.table(sort);
        let before = self.outcome.differences.len();
        let verdict = judge::sound(tables).and_then(|number| not_sound(sort, tables, number));
        if let Some(number) = self.hold(Some(sort), verdict) {
            self.tally.reply(Call::Sound, number);
            if number == 0 {
                self.tally.sound(sort, tables);
            }
        }
        for record in records {
            let verdict = judge::turn(tables, record);
            if let Some(number) = self.hold(Some(sort), verdict) {
                self.tally.turn(tables, record, number);
            }
        }
        for _ in 0..3 {
            let query = self.query(tables);
            let verdict = judge::log_entry(tables, query);
            if let Some(number) = self.hold(Some(sort), verdict) {
                self.tally.reply(Call::LogEntry, number);
            }
        }
        self.outcome.failed_tables += u64::from(self.outcome.differences.len() > before);
    }

    /// A rack, lane and place, some not there.
    fn query(&mut self, tables: &Tables) -> [usize; 3] {
        let random = &mut self.random;
        let sizes = tables.sizes.map(|size| size.min(MOST_ROUNDS));
        let mut query = sizes.map(|size| random.below(size));
        if random.one_in(2) {
            query[2] = random.below(sizes[2].min(3));
        }
        if random.one_in(6) {
            let index = random.below(3);
            let past = sizes[index];
            let others = [past, past + 1, 255, query[index] + (1 << 32), usize::MAX];
            query[index] = random.pick(&others).unwrap_or(past);
        }
        query
    }

    /// Fresh, two logs, and cue lists.
    fn other_calls(&mut self, sizes: Sizes) {
        let unfilled = plain::unfilled(sizes, &mut self.random);
        self.other(Call::Fresh, plain::fresh(&unfilled));
        let [a, b] = plain::two_logs(&mut self.random);
        self.other(Call::Agree, plain::agree(&a, &b));
        self.other(Call::Longer, plain::longer(&a, &b));
        let mut lists = Lists::made(sizes, &mut self.random);
        for _ in 0..3 {
            let record = lists.record(&mut self.random);
            let verdict = lists.add(&record);
            self.other(Call::AddCue, verdict);
        }
        let query = lists.query(&mut self.random);
        self.other(Call::CodeOf, lists.code(query));
        if self.random.one_in(4) {
            let record = lists.record(&mut self.random);
            let mut spoiled = lists.spoiled(&mut self.random);
            self.other(Call::CodeOf, spoiled.code(query));
            self.other(Call::AddCue, spoiled.add(&record));
        }
    }

    fn other(&mut self, call: Call, verdict: Verdict) {
        if let Some(number) = self.hold(None, verdict) {
            self.tally.reply(call, number);
        }
    }

    /// Keeps a difference, or hands on the number that both programs gave.
    fn hold(&mut self, sort: Option<Sort>, verdict: Verdict) -> Option<u8> {
        match verdict {
            Ok(number) => Some(number),
            Err(difference) => {
                self.outcome.differences.push((sort, difference));
                None
            }
        }
    }
}

/// A table that is sound by the way it is made has to be found so.
fn not_sound(sort: Sort, tables: &Tables, number: u8) -> Verdict {
    if number == 0 || !sort.is_sound() {
        return Ok(number);
    }
    Err(Box::new(Difference {
        call: "night_sound",
        given: format!("sizes {:?}", tables.sizes),
        what: format!("made sound, and both programs reply {number}"),
        line: Some(format!("sound {}", tables.fields())),
    }))
}

#[cfg(test)]
mod tests {
    use super::*;

    #[test]
    fn a_case_can_be_made_again() {
        for seed in 0..50 {
            let tallies = [seed, seed].map(|seed| {
                let mut tally = Tally::default();
                assert!(run(seed, &mut tally).differences.is_empty(), "seed {seed}");
                tally.to_string()
            });
            assert_eq!(tallies[0], tallies[1], "seed {seed}");
        }
    }
}
