//! "Left to others: the arbiter's own circuit, the clock": racks that stall for a while, and
//! racks that are switched off for good.

use crate::night::Night;
use crate::random::Random;
use crate::sizes::Sizes;

/// When each rack is awake, by the number of turns given so far.
pub struct Sleep {
    stalls: bool,
    stalled_until: Vec<usize>,
    off_from: Vec<usize>,
}

impl Sleep {
    /// Where racks are switched off at all, it is after so many turns or more.
    pub fn new(stalls: bool, off_from: Option<usize>, sizes: Sizes, random: &mut Random) -> Sleep {
        let all_turns = sizes.racks() * sizes.rounds() * sizes.steps_of_round();
        let off_from = (0..sizes.racks())
            .map(|_| match off_from {
                Some(least) if random.one_in(2) => random.between(least, all_turns - 1),
                _ => usize::MAX,
            })
            .collect();
        Sleep {
            stalls,
            stalled_until: vec![0; sizes.racks()],
            off_from,
        }
    }

    /// The racks that can take the next turn.
    pub fn awake(&mut self, now: usize, night: &Night, random: &mut Random) -> Vec<usize> {
        let steps = night.sizes().steps_of_round();
        if self.stalls && random.one_in(steps) {
            let rack = random.below(night.sizes().racks());
            self.stalled_until[rack] = now + random.between(1, 4 * steps);
        }
        let on: Vec<usize> = (0..night.sizes().racks())
            .filter(|rack| self.is_on(*rack, now) && !has_finished(night, *rack))
            .collect();
        let awake: Vec<usize> = on
            .iter()
            .copied()
            .filter(|rack| self.stalled_until[*rack] <= now)
            .collect();
        // When nobody else is left, a stall is over.
        if awake.is_empty() {
            on
        } else {
            awake
        }
    }

    fn is_on(&self, rack: usize, now: usize) -> bool {
        now < self.off_from[rack]
    }
}

pub fn has_finished(night: &Night, rack: usize) -> bool {
    usize::from(night.racks()[rack].round) > night.sizes().rounds()
}
