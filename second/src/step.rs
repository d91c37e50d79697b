//! "A round of one rack is 2 + k(2n + 2) steps. Which of the six kinds comes next is a
//! matter of the step number's range."

use crate::sizes::Sizes;

/// What a rack does at a step; a source is the rack whose cell is read.
#[derive(Clone, Copy, Debug, PartialEq, Eq)]
pub enum Step {
    Offer,
    Answer,
    FirstWrite { lane: usize },
    FirstRead { lane: usize, source: usize },
    SecondWrite { lane: usize },
    SecondRead { lane: usize, source: usize },
}

impl Step {
    pub fn at(step: usize, first_lane: usize, sizes: Sizes) -> Step {
        match Block::at(step, sizes) {
            None if step == 0 => Step::Offer,
            None => Step::Answer,
            Some(block) => block.step(lane_of_visit(first_lane, block.visit), sizes),
        }
    }
}

/// A block of a round: which one in visiting order, and how many of its steps are done.
#[derive(Clone, Copy, Debug, PartialEq, Eq)]
pub struct Block {
    pub visit: usize,
    pub done: usize,
}

impl Block {
    /// The block of a step; steps 0 and 1 come before the blocks.
    pub fn at(step: usize, sizes: Sizes) -> Option<Block> {
        let step = step.checked_sub(2)?;
        Some(Block {
            visit: step / sizes.steps_of_block(),
            done: step % sizes.steps_of_block(),
        })
    }

    fn step(self, lane: usize, sizes: Sizes) -> Step {
        let racks = sizes.racks();
        match self.done {
            0 => Step::FirstWrite { lane },
            done if done <= racks => Step::FirstRead {
                lane,
                source: done - 1,
            },
            done if done == racks + 1 => Step::SecondWrite { lane },
            done => Step::SecondRead {
                lane,
                source: done - racks - 2,
            },
        }
    }

    pub fn first_is_written(self) -> bool {
        self.done > 0
    }

    pub fn second_is_written(self, sizes: Sizes) -> bool {
        self.done > sizes.racks() + 1
    }

    /// How many first cells were read so far.
    pub fn first_read(self, sizes: Sizes) -> usize {
        self.done.saturating_sub(1).min(sizes.racks())
    }

    /// How many second cells were read so far.
    pub fn second_read(self, sizes: Sizes) -> usize {
        self.done.saturating_sub(sizes.racks() + 2)
    }
}

/// The lane of a visit: the first lane, then "each other lane in rising order".
pub fn lane_of_visit(first_lane: usize, visit: usize) -> usize {
    match visit.checked_sub(1) {
        None => first_lane,
        Some(lane) if lane < first_lane => lane,
        Some(_) => visit,
    }
}
