//! "other nights are run against an independent second program": nights made from a seed,
//! with every size, order of turns and refusal that the files of a night can cause.
//!
//! The seed decides what a night is for, so that nothing is left to luck: in `CYCLE` nights in
//! a row, from any seed on, all of that comes up.

mod answers;
mod player;
mod schedule;
mod sleep;
mod spoil;
mod wrong;

use std::fmt::{self, Display};
use std::io::{self, ErrorKind, Write};
use std::path::Path;

use crate::cues::MOST_CUES;
use crate::files::{EmptyFile, NightFiles};
use crate::random::Random;
use crate::records::RECORD;
use crate::sizes::{Sizes, MOST_LANES, MOST_RACKS, MOST_ROUNDS};

pub use player::OF_A_NIGHT;
pub use schedule::Schedule;

use answers::Preference;
use player::{play, Plan, Replies};
use spoil::{spoil_cues, spoil_size};

/// One night in so many has the next sizes, and one has every refusal.
const SHARE: u64 = 8;

/// So many nights in a row have every number of racks, lanes and rounds, every pair of racks and
/// lanes, every schedule, every refusal that a night can cause, and both bad files.
pub const CYCLE: u64 = SHARE * MOST_ROUNDS as u64;

/// What a night is for.
#[derive(Clone, Copy, Debug, PartialEq, Eq)]
pub enum Kind {
    /// It has the sizes whose turn it is, by an index.
    SizesInTurn(u64),
    EveryRefusal,
    /// The size file is bad, in one way of several.
    BadSize(u64),
    /// The cue file is bad, in one way of several.
    BadCues(u64),
    Any,
}

impl Kind {
    pub fn of(seed: u64) -> Kind {
        let index = seed / SHARE;
        match (seed % SHARE, index % 2) {
            (0, _) => Kind::SizesInTurn(index),
            (3, 0) => Kind::BadSize(index / 2),
            (3, _) => Kind::BadCues(index / 2),
            (4, _) => Kind::EveryRefusal,
            _ => Kind::Any,
        }
    }
}

/// A made night: its files, how an empty one is left on disk, and what it is made of.
#[derive(Clone, Debug)]
pub struct MadeNight {
    pub files: NightFiles,
    pub empty: EmptyFile,
    pub summary: Summary,
}

/// What a made night is made of, told in one line.
#[derive(Clone, Debug)]
pub struct Summary {
    pub seed: u64,
    pub sizes: Sizes,
    pub schedule: Schedule,
    pub preference: Preference,
    pub cues: usize,
    pub replies: Replies,
    pub mixed_in: Vec<&'static str>,
}

impl Display for Summary {
    fn fmt(&self, formatter: &mut fmt::Formatter) -> fmt::Result {
        let (seed, sizes) = (self.seed, self.sizes);
        let (racks, lanes, rounds) = (sizes.racks(), sizes.lanes(), sizes.rounds());
        let (schedule, answers) = (self.schedule.name(), self.preference.name());
        write!(
            formatter,
            "seed {seed} racks {racks} lanes {lanes} rounds {rounds}"
        )?;
        write!(formatter, " schedule {schedule} answers {answers}")?;
        write!(formatter, " cues {} taken {}", self.cues, self.replies[0])?;
        for (number, count) in self.replies.iter().enumerate().skip(1) {
            if *count > 0 {
                write!(formatter, " refused-with-{number} {count}")?;
            }
        }
        let mixed_in = match self.mixed_in.as_slice() {
            [] => "nothing".to_string(),
            mixed_in => mixed_in.join(", "),
        };
        write!(formatter, " mixed in: {mixed_in}")
    }
}

/// The night of a seed.
pub fn make(seed: u64) -> MadeNight {
    let kind = Kind::of(seed);
    let mut random = Random::new(seed);
    let sizes = make_sizes(kind, &mut random);
    let cues = make_cues(sizes, &mut random);
    let plan = Plan::new(kind, Schedule::in_turn(seed), &mut random);
    let (turns, replies) = play(sizes, &plan, &mut random);
    let mut made = MadeNight {
        summary: Summary {
            seed,
            sizes,
            schedule: plan.schedule,
            preference: plan.preference,
            cues: cues.len() / RECORD,
            replies,
            mixed_in: plan.mixed_in().collect(),
        },
        files: NightFiles {
            size: [sizes.racks(), sizes.lanes(), sizes.rounds(), 0]
                .map(|size| size as u8)
                .to_vec(),
            cues,
            turns,
        },
        empty: EmptyFile::Written,
    };
    made.spoil(kind, &mut random);
    made
}

impl MadeNight {
    /// In a small share of nights the size file or the cue file is bad, in some both are.
    fn spoil(&mut self, kind: Kind, random: &mut Random) {
        match kind {
            Kind::BadSize(way) => {
                let how = spoil_size(&mut self.files.size, way, random);
                self.summary.mixed_in.push(how);
                if random.one_in(3) {
                    let way = random.draw();
                    self.spoil_cues(way, random);
                }
            }
            Kind::BadCues(way) => self.spoil_cues(way, random),
            _ => {}
        }
        if random.one_in(2) {
            self.empty = EmptyFile::LeftOut;
        }
    }

    fn spoil_cues(&mut self, way: u64, random: &mut Random) {
        let how = spoil_cues(&mut self.files.cues, self.summary.sizes, way, random);
        self.summary.mixed_in.push(how);
    }
}

/// Makes so many nights from a seed on, each in a folder of its own, a line for each.
pub fn make_nights(seed: u64, folder: &Path, count: u64, out: &mut impl Write) -> io::Result<()> {
    for seed in seeds(seed, count)? {
        make_night(seed, &folder.join(seed.to_string()), out)?;
    }
    Ok(())
}

/// So many seeds in a row, if there are.
pub fn seeds(first: u64, count: u64) -> io::Result<impl Iterator<Item = u64>> {
    if count > 0 && first.checked_add(count - 1).is_none() {
        let what = format!("there are no {count} seeds from {first} on");
        return Err(io::Error::new(ErrorKind::InvalidInput, what));
    }
    Ok((0..count).map(move |index| first + index))
}

/// Makes the night of a seed in a folder, and prints its line.
pub fn make_night(seed: u64, folder: &Path, out: &mut impl Write) -> io::Result<()> {
    let made = make(seed);
    made.files.write(folder, made.empty)?;
    writeln!(out, "{}", made.summary)
}

/// The sizes whose turn it is; else small ones more often, and now and then the largest night.
fn make_sizes(kind: Kind, random: &mut Random) -> Sizes {
    let (racks, lanes, rounds) = match (kind, random.below(100)) {
        (Kind::SizesInTurn(index), _) => sizes_in_turn(index),
        // Only where there are two racks can one be without an offer or decided against.
        (Kind::EveryRefusal, _) => (
            random.between(2, 4),
            random.between(1, 3),
            random.between(1, 6),
        ),
        (_, 0) => return Sizes::LARGEST,
        (_, 1..=29) => (
            random.between(1, MOST_RACKS),
            random.between(1, MOST_LANES),
            random.between(1, 8),
        ),
        _ => (
            random.between(1, 4),
            random.between(1, 3),
            random.between(1, 6),
        ),
    };
    // All that are drawn are in range.
    Sizes::new(racks as u64, lanes as u64, rounds as u64).unwrap_or(Sizes::LARGEST)
}

/// Racks, lanes and rounds: each number of rounds once in 64 indices in a row, each pair of racks
/// and lanes too, and the next time with other rounds.
fn sizes_in_turn(index: u64) -> (usize, usize, usize) {
    let below = |number: u64, most: usize| (number % most as u64) as usize;
    let racks = 1 + below(index + index / MOST_ROUNDS as u64, MOST_RACKS);
    let lanes = 1 + below(index / MOST_RACKS as u64, MOST_LANES);
    (racks, lanes, 1 + below(index, MOST_ROUNDS))
}

/// Lists from none to full, their records in any order.
fn make_cues(sizes: Sizes, random: &mut Random) -> Vec<u8> {
    let most = random
        .pick(&[0, 2, sizes.rounds(), MOST_CUES])
        .unwrap_or_default();
    let full = random.one_in(4);
    let mut lists = Vec::new();
    for rack in 0..sizes.racks() as u8 {
        for lane in 0..sizes.lanes() as u8 {
            let count = if full { most } else { random.between(0, most) };
            lists.extend((0..count).map(|_| (rack, lane)));
        }
    }
    random.shuffle(&mut lists);
    lists
        .into_iter()
        .flat_map(|(rack, lane)| {
            let [low, high] = (random.between(1, 65_535) as u16).to_le_bytes();
            [rack, lane, low, high]
        })
        .collect()
}
