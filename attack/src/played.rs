//! Nights played from a fresh table, right turn after right turn, "though any rack may stall or
//! be switched off at any turn".

use second::night::Night;
use second::random::Random;
use second::sizes::Sizes;
use second::sound::SoundNight;

use crate::records::right;

/// An order of turns.
#[derive(Clone, Copy, Debug, PartialEq, Eq)]
enum Order {
    Any,
    InTurn,
    Bursts,
    Lockstep,
}

/// A night under way.
pub struct Played {
    night: SoundNight,
    order: Order,
    /// The racks that are on and have not finished.
    awake: Vec<usize>,
    /// One turn in so many switches a rack off for good.
    off_one_in: Option<usize>,
    /// The place in `awake` of the next turn's rack, and how long it stays there.
    place: usize,
    left: usize,
}

impl Played {
    /// A night of any order of turns, in one of three some racks are switched off.
    pub fn new(sizes: Sizes, random: &mut Random) -> Played {
        let off_one_in = random.one_in(3).then(|| all_turns(sizes));
        Played {
            off_one_in,
            ..Played::whole(sizes, random)
        }
    }

    /// A night in which every rack plays to its end.
    pub fn whole(sizes: Sizes, random: &mut Random) -> Played {
        let orders = [Order::Any, Order::InTurn, Order::Bursts, Order::Lockstep];
        Played {
            night: SoundNight::fresh(sizes),
            order: random.pick(&orders).unwrap_or(Order::Any),
            awake: (0..sizes.racks()).collect(),
            off_one_in: None,
            place: 0,
            left: 0,
        }
    }

    pub fn night(&self) -> &Night {
        self.night.night()
    }

    /// The rack of the next turn; none when all that are on have finished.
    pub fn next_rack(&mut self, random: &mut Random) -> Option<usize> {
        if self.off_one_in.is_some_and(|count| random.one_in(count)) && !self.awake.is_empty() {
            self.awake.remove(random.below(self.awake.len()));
        }
        let count = self.awake.len();
        if count == 0 {
            return None;
        }
        self.place = match self.order {
            Order::Any => random.below(count),
            Order::InTurn => (self.place + 1) % count,
            Order::Bursts if self.left > 0 => self.place % count,
            Order::Bursts => {
                self.left = random.between(1, 2 * self.night().sizes().steps_of_round());
                random.below(count)
            }
            Order::Lockstep => self.furthest_behind(random.below(count)),
        };
        self.left = self.left.saturating_sub(1);
        Some(self.awake[self.place])
    }

    /// The place of a rack with the fewest steps behind it, from a place on.
    fn furthest_behind(&self, from: usize) -> usize {
        let racks = self.night().racks();
        let behind = |place: &usize| {
            let rack = &racks[self.awake[*place]];
            (rack.round, rack.step)
        };
        let count = self.awake.len();
        let places = (from..from + count).map(|place| place % count);
        places.min_by_key(behind).unwrap_or(from)
    }

    /// Takes the next turn; false when there is none.
    pub fn play(&mut self, random: &mut Random) -> bool {
        let Some(rack) = self.next_rack(random) else {
            return false;
        };
        let record = right(self.night(), rack, random);
        self.take(&record);
        true
    }

    /// Takes a turn of a rack that `next_rack` gave.
    pub fn take(&mut self, record: &[u8]) {
        let taken = self.night.turn(record).is_ok();
        debug_assert!(taken, "{record:?}");
        let (racks, rounds) = (self.night().racks(), self.night().sizes().rounds());
        let has_finished = |rack: usize| usize::from(racks[rack].round) > rounds;
        if has_finished(self.awake[self.place]) {
            self.awake.remove(self.place);
        }
    }
}

/// The turns of a night in which every rack plays to its end.
pub fn all_turns(sizes: Sizes) -> usize {
    sizes.racks() * sizes.rounds() * sizes.steps_of_round()
}

#[cfg(test)]
mod tests {
    use super::*;

    #[test]
    fn a_whole_night_is_all_turns_and_stays_sound() {
        for seed in 0..40 {
            let mut random = Random::new(seed);
            let sizes = Sizes::new(random.between(1, 4) as u64, 2, 3).expect("sizes in range");
            let mut played = Played::whole(sizes, &mut random);
            let mut turns = 0;
            while played.play(&mut random) {
                turns += 1;
                assert!(played.night().is_sound(), "seed {seed} after turn {turns}");
            }
            assert_eq!(turns, all_turns(sizes), "seed {seed}");
        }
    }

    #[test]
    fn racks_are_switched_off() {
        let sizes = Sizes::new(3, 2, 3).expect("sizes in range");
        let ended_early = (0..40)
            .filter(|seed| {
                let mut random = Random::new(*seed);
                let mut played = Played::new(sizes, &mut random);
                while played.play(&mut random) {}
                played.night().racks()[..3]
                    .iter()
                    .any(|rack| rack.round <= 3)
            })
            .count();
        assert!((3..30).contains(&ended_early), "{ended_early}");
    }
}
