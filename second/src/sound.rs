//! "Sound, with no look at history: marks fit their section ...; unused racks and lanes
//! are zeros."

use crate::cell::{Cell, Section, Value, ADOPTED, COMMITTED};
use crate::logs::{length, logs_are_sound};
use crate::night::{Night, NO_SOURCE};
use crate::rack::{Rack, NO_LANE};
use crate::refusal::Refusal;
use crate::sizes::{Sizes, CELL_RECORD};
use crate::step::{lane_of_visit, Block};

/// A night known to be sound, played turn by turn without the test in between.
#[derive(Clone, Debug, PartialEq, Eq)]
pub struct SoundNight(Night);

impl SoundNight {
    pub fn fresh(sizes: Sizes) -> SoundNight {
        SoundNight(Night::fresh(sizes))
    }

    pub fn night(&self) -> &Night {
        &self.0
    }

    pub fn turn(&mut self, record: &[u8]) -> Result<(), Refusal> {
        self.0.turn_when_sound(record)
    }
}

impl Night {
    pub fn is_sound(&self) -> bool {
        // Logs and decisions come first: what is asked of a rack looks things up by them.
        logs_are_sound(self.logs(), self.sizes())
            && self.decisions_are_sound()
            && self.cells_are_sound()
            && self.racks_are_sound()
    }

    /// "decisions are 255 or below n".
    fn decisions_are_sound(&self) -> bool {
        self.decisions()
            .iter()
            .all(|source| *source == NO_SOURCE || usize::from(*source) < self.sizes().racks())
    }

    fn cells_are_sound(&self) -> bool {
        [Section::Offers, Section::First, Section::Second]
            .into_iter()
            .all(|section| self.section_is_sound(section))
    }

    fn section_is_sound(&self, section: Section) -> bool {
        self.section(section)
            .chunks_exact(CELL_RECORD)
            .all(|record| record_is_sound(record, section, self.sizes()))
    }

    fn racks_are_sound(&self) -> bool {
        let (used, unused) = self.racks.split_at(self.sizes().racks());
        used.iter()
            .enumerate()
            .all(|(index, rack)| self.rack_is_sound(index, rack))
            && unused.iter().all(|rack| *rack == Rack::default())
    }

    fn rack_is_sound(&self, index: usize, rack: &Rack) -> bool {
        counters_are_sound(rack, self.sizes())
            && gathered_is_sound(rack, self.sizes())
            && lanes_past_the_last_are_zeros(rack, self.sizes())
            && self.held_is_sound(index, rack)
            && self.offers_are_written(index, rack)
            && self.first_lane_is_decided(rack)
            && self.lanes_are_sound(index, rack)
    }

    /// "held place equals log length".
    fn held_is_sound(&self, index: usize, rack: &Rack) -> bool {
        (0..self.sizes().lanes()).all(|lane| {
            let held = rack.held[lane];
            held.is_sound(self.sizes()) && usize::from(held.place) == length(self.log(index, lane))
        })
    }

    /// From step 1 on "the cells a rack has written hold a value": its offers.
    fn offers_are_written(&self, index: usize, rack: &Rack) -> bool {
        let round = usize::from(rack.round);
        rack.step == 0
            || (0..self.sizes().lanes())
                .all(|lane| !self.cell(Section::Offers, round, lane, index).is_empty())
    }

    /// "a rack's first lane is decided, for a source whose offer there is not empty".
    fn first_lane_is_decided(&self, rack: &Rack) -> bool {
        let (round, lane) = (usize::from(rack.round), usize::from(rack.first_lane));
        rack.step < 2
            || self
                .decision(round, lane)
                .is_some_and(|source| !self.cell(Section::Offers, round, lane, source).is_empty())
    }

    /// What is asked of each lane, by whether its block is over, under way or to come.
    fn lanes_are_sound(&self, index: usize, rack: &Rack) -> bool {
        let lanes = self.sizes().lanes();
        let Some(block) = Block::at(rack.step.into(), self.sizes()) else {
            return (0..lanes).all(|lane| has_no_outcome(rack, lane));
        };
        (0..lanes).all(|visit| {
            let lane = lane_of_visit(rack.first_lane.into(), visit);
            if visit < block.visit {
                has_outcome(rack, lane, self.sizes()) && self.both_are_written(index, rack, lane)
            } else {
                has_no_outcome(rack, lane)
                    && (visit > block.visit || self.block_is_sound(index, rack, lane, block))
            }
        })
    }

    fn both_are_written(&self, index: usize, rack: &Rack, lane: usize) -> bool {
        let round = usize::from(rack.round);
        [Section::First, Section::Second]
            .into_iter()
            .all(|section| !self.cell(section, round, lane, index).is_empty())
    }

    /// "the cells a rack has written hold a value, what it read back from itself equals them".
    fn block_is_sound(&self, index: usize, rack: &Rack, lane: usize, block: Block) -> bool {
        let sizes = self.sizes();
        let round = usize::from(rack.round);
        let first = self.cell(Section::First, round, lane, index);
        let second = self.cell(Section::Second, round, lane, index);
        (!block.first_is_written() || !first.is_empty())
            && (!block.second_is_written(sizes) || !second.is_empty())
            && (block.first_read(sizes) <= index || rack.gathered_first[index] == first)
            && (block.second_read(sizes) <= index || rack.gathered_second[index] == second)
    }
}

fn record_is_sound(record: &[u8], section: Section, sizes: Sizes) -> bool {
    match *record {
        [mark, place, issuer, number, previous_issuer, previous_number, 0, 0] => {
            let bytes = [
                mark,
                place,
                issuer,
                number,
                previous_issuer,
                previous_number,
            ];
            Cell::from_bytes(bytes).is_sound(section, sizes)
        }
        _ => false,
    }
}

/// "round is 1 to R + 1, with step 0 at R + 1; step is below 2 + k(2n + 2); first lane is
/// below k when step is 2 or more, else 255".
fn counters_are_sound(rack: &Rack, sizes: Sizes) -> bool {
    let (round, step) = (usize::from(rack.round), usize::from(rack.step));
    let in_a_round = (1..=sizes.rounds()).contains(&round) && step < sizes.steps_of_round();
    let after_the_last = round == sizes.rounds() + 1 && step == 0;
    let first_lane_is_sound = if step >= 2 {
        usize::from(rack.first_lane) < sizes.lanes()
    } else {
        rack.first_lane == NO_LANE
    };
    (in_a_round || after_the_last) && first_lane_is_sound
}

/// "gathered cells are sound for their section, and empty if not yet read".
fn gathered_is_sound(rack: &Rack, sizes: Sizes) -> bool {
    let block = Block::at(rack.step.into(), sizes);
    let first_read = block.map_or(0, |block| block.first_read(sizes));
    let second_read = block.map_or(0, |block| block.second_read(sizes));
    read_so_far_is_sound(&rack.gathered_first, first_read, Section::First, sizes)
        && read_so_far_is_sound(&rack.gathered_second, second_read, Section::Second, sizes)
}

fn read_so_far_is_sound(cells: &[Cell], read: usize, section: Section, sizes: Sizes) -> bool {
    let (read, unread) = cells.split_at(read);
    read.iter().all(|cell| cell.is_sound(section, sizes))
        && unread.iter().all(|cell| *cell == Cell::EMPTY)
}

fn lanes_past_the_last_are_zeros(rack: &Rack, sizes: Sizes) -> bool {
    let lanes = sizes.lanes();
    rack.held[lanes..].iter().all(|held| *held == Value::NONE)
        && (lanes..rack.held.len()).all(|lane| has_no_outcome(rack, lane))
}

/// "each lane it has finished has a result and news, each other lane neither".
fn has_outcome(rack: &Rack, lane: usize, sizes: Sizes) -> bool {
    let result = rack.results[lane];
    matches!(result.mark, ADOPTED | COMMITTED)
        && result.value.is_sound(sizes)
        && rack.news[lane].is_sound(sizes)
}

fn has_no_outcome(rack: &Rack, lane: usize) -> bool {
    rack.results[lane] == Cell::EMPTY && rack.news[lane] == Value::NONE
}
