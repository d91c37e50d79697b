//! "A turn is 4 bytes: rack, lane, source, zero. Lane and source are both 255 except at an
//! answer step."

use crate::block;
use crate::cell::{Cell, Section, WRITTEN};
use crate::night::Night;
use crate::rack::{Rack, NO_LANE};
use crate::refusal::Refusal;
use crate::settle::settle;
use crate::sizes::{Sizes, MOST_RACKS};
use crate::step::Step;

/// A turn record of the right form, for a rack that is there.
#[derive(Clone, Copy, Debug, PartialEq, Eq)]
struct Turn {
    rack: usize,
    lane: u8,
    source: u8,
}

impl Turn {
    fn from_record(record: &[u8], sizes: Sizes) -> Result<Turn, Refusal> {
        match *record {
            [rack, lane, source, 0] if usize::from(rack) < sizes.racks() => Ok(Turn {
                rack: usize::from(rack),
                lane,
                source,
            }),
            _ => Err(Refusal::Record),
        }
    }

    /// Refusal 5: lane and source are those of an answer, or both 255 at another step.
    fn check(self, step: Step, sizes: Sizes) -> Result<(), Refusal> {
        let (lane, source) = (usize::from(self.lane), usize::from(self.source));
        let right = match step {
            Step::Answer => lane < sizes.lanes() && source < sizes.racks(),
            _ => (lane, source) == (255, 255),
        };
        if right {
            Ok(())
        } else {
            Err(Refusal::LaneOrSource)
        }
    }
}

impl Night {
    /// One turn on any tables: taken, or refused with everything as before.
    pub fn turn(&mut self, record: &[u8]) -> Result<(), Refusal> {
        if !self.is_sound() {
            return Err(Refusal::NotSound);
        }
        self.turn_when_sound(record)
    }

    /// One turn on tables known to be sound, which a taken turn leaves sound.
    pub(crate) fn turn_when_sound(&mut self, record: &[u8]) -> Result<(), Refusal> {
        let sizes = self.sizes();
        let turn = Turn::from_record(record, sizes)?;
        let mut rack = self.racks[turn.rack];
        if usize::from(rack.round) > sizes.rounds() {
            return Err(Refusal::Finished);
        }
        let step = Step::at(rack.step.into(), rack.first_lane.into(), sizes);
        turn.check(step, sizes)?;
        self.perform(turn, step, &mut rack)?;
        rack.step += 1;
        if usize::from(rack.step) == sizes.steps_of_round() {
            rack = self.end_round(turn.rack, &rack)?;
        }
        self.racks[turn.rack] = rack;
        Ok(())
    }

    fn perform(&mut self, turn: Turn, step: Step, rack: &mut Rack) -> Result<(), Refusal> {
        let round = usize::from(rack.round);
        match step {
            Step::Offer => self.offer(turn.rack, rack),
            Step::Answer => self.answer(turn, rack)?,
            Step::FirstWrite { lane } => {
                let cell = self.first_cell(lane, rack);
                self.write_cell(Section::First, round, lane, turn.rack, cell);
            }
            Step::FirstRead { lane, source } => {
                rack.gathered_first[source] = self.cell(Section::First, round, lane, source);
            }
            Step::SecondWrite { lane } => {
                let cell = block::second_cell(turn.rack, &rack.gathered_first);
                self.write_cell(Section::Second, round, lane, turn.rack, cell);
            }
            Step::SecondRead { lane, source } => {
                rack.gathered_second[source] = self.cell(Section::Second, round, lane, source);
                if source + 1 == self.sizes().racks() {
                    end_block(turn.rack, lane, rack);
                }
            }
        }
        Ok(())
    }

    /// "all k held values go into the rack's offer cells of this round".
    fn offer(&mut self, index: usize, rack: &Rack) {
        for lane in 0..self.sizes().lanes() {
            let offer = Cell::new(WRITTEN, rack.held[lane]);
            self.write_cell(Section::Offers, rack.round.into(), lane, index, offer);
        }
    }

    /// "Decision (round, m) becomes q; m is the first lane."
    fn answer(&mut self, turn: Turn, rack: &mut Rack) -> Result<(), Refusal> {
        let (lane, source) = (usize::from(turn.lane), usize::from(turn.source));
        let round = usize::from(rack.round);
        if self.cell(Section::Offers, round, lane, source).is_empty() {
            return Err(Refusal::NoOffer);
        }
        let decided = self.decision(round, lane);
        if decided.is_some_and(|other| other != source) {
            return Err(Refusal::OtherSource);
        }
        self.decide(round, lane, turn.source);
        rack.first_lane = turn.lane;
        Ok(())
    }

    /// In its first lane a rack proposes the decided source's offer, elsewhere what it holds.
    fn first_cell(&self, lane: usize, rack: &Rack) -> Cell {
        let round = usize::from(rack.round);
        match self.decision(round, lane) {
            Some(source) if lane == usize::from(rack.first_lane) => {
                self.cell(Section::Offers, round, lane, source)
            }
            _ => Cell::new(WRITTEN, rack.held[lane]),
        }
    }

    /// "Then round rises by one, step is 0, and first lane, results and news are cleared."
    fn end_round(&mut self, index: usize, rack: &Rack) -> Result<Rack, Refusal> {
        // Every lane is settled before any is written, so that a refusal changes nothing.
        let settled = (0..self.sizes().lanes())
            .map(|lane| {
                let log = self.log(index, lane);
                settle(index, log, rack.results[lane], rack.news[lane])
            })
            .collect::<Result<Vec<_>, _>>()?;
        let mut next = Rack {
            round: rack.round + 1,
            first_lane: NO_LANE,
            ..Rack::default()
        };
        for (lane, settled) in settled.into_iter().enumerate() {
            next.held[lane] = settled.held;
            for (place, entry) in settled.log.into_iter().enumerate() {
                self.write_entry(index, lane, place, entry);
            }
        }
        Ok(next)
    }
}

/// Keeps the lane's result and news; "what was gathered is emptied at the end of each block".
fn end_block(index: usize, lane: usize, rack: &mut Rack) {
    rack.results[lane] = block::result(index, &rack.gathered_first, &rack.gathered_second);
    rack.news[lane] = block::news(&rack.gathered_first, &rack.gathered_second);
    rack.gathered_first = [Cell::EMPTY; MOST_RACKS];
    rack.gathered_second = [Cell::EMPTY; MOST_RACKS];
}
