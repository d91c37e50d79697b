//! The nights that are measured: whole ones of any size, and one of refused turns alone.

use std::fmt::{self, Display};

use crate::files::NightFiles;
use crate::records::RECORD;
use crate::sizes::Sizes;

/// "a line of turns read, taken and refused".
#[derive(Clone, Copy, Debug, PartialEq, Eq)]
pub struct Counts {
    pub read: u64,
    pub taken: u64,
    pub refused: u64,
}

impl Counts {
    /// The counts on the turns line of a sheet.
    pub fn on(sheet: &[u8]) -> Option<Counts> {
        let line = sheet
            .split(|byte| *byte == b'\n')
            .find(|line| line.starts_with(b"turns "))?;
        let words: Vec<&str> = std::str::from_utf8(line).ok()?.split(' ').collect();
        match *words.as_slice() {
            ["turns", read, "taken", taken, "refused", refused] => Some(Counts {
                read: read.parse().ok()?,
                taken: taken.parse().ok()?,
                refused: refused.parse().ok()?,
            }),
            _ => None,
        }
    }
}

impl Display for Counts {
    fn fmt(&self, formatter: &mut fmt::Formatter) -> fmt::Result {
        let Counts {
            read,
            taken,
            refused,
        } = self;
        write!(formatter, "turns {read} taken {taken} refused {refused}")
    }
}

/// A night and the counts that its sheet must tell.
#[derive(Clone, Debug)]
pub struct CountedNight {
    pub files: NightFiles,
    pub counts: Counts,
}

/// All racks in step to the end, every turn taken, without cues.
pub fn whole_night(sizes: Sizes) -> CountedNight {
    let mut turns = Vec::new();
    for _ in 0..sizes.rounds() {
        for step in 0..sizes.steps_of_round() {
            for rack in 0..sizes.racks() {
                turns.extend(whole_night_record(rack, step, sizes));
            }
        }
    }
    let read = (turns.len() / RECORD) as u64;
    CountedNight {
        files: without_cues(sizes, turns),
        counts: Counts {
            read,
            taken: read,
            refused: 0,
        },
    }
}

/// A lane's source is always the rack of its number, and all have offered before any answers.
fn whole_night_record(rack: usize, step: usize, sizes: Sizes) -> [u8; RECORD] {
    let lane = (rack % sizes.lanes()) as u8;
    match step {
        1 => [rack as u8, lane, lane, 0],
        _ => [rack as u8, 255, 255, 0],
    }
}

/// Refused at the first step of every rack, of the largest night: a rack that is not there and
/// a last byte that is not zero with 3; a lane, a source, and both with 5.
pub const REFUSED: [[u8; RECORD]; 5] = [
    [8, 255, 255, 0],
    [0, 255, 255, 1],
    [1, 0, 255, 0],
    [2, 255, 3, 0],
    [3, 2, 1, 0],
];

/// So many turns of the largest night, all refused from a fresh table, without cues.
pub fn refused_night(count: usize) -> CountedNight {
    let turns = REFUSED.iter().cycle().take(count).flatten().copied();
    CountedNight {
        files: without_cues(Sizes::LARGEST, turns.collect()),
        counts: Counts {
            read: count as u64,
            taken: 0,
            refused: count as u64,
        },
    }
}

fn without_cues(sizes: Sizes, turns: Vec<u8>) -> NightFiles {
    NightFiles {
        size: [sizes.racks(), sizes.lanes(), sizes.rounds(), 0]
            .map(|size| size as u8)
            .to_vec(),
        cues: Vec::new(),
        turns,
    }
}
