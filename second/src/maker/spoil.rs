//! "A size.rec that is not 4 bytes, has a size out of range or a last byte not zero prints
//! `bad size` alone; the first bad cue record prints `bad cues` and its index from 0, alone."

use crate::cues::MOST_CUES;
use crate::random::Random;
use crate::records::RECORD;
use crate::sizes::{Sizes, MOST_LANES, MOST_RACKS, MOST_ROUNDS};

/// Makes a size file bad, in one of five ways, and tells how.
pub fn spoil_size(size: &mut Vec<u8>, way: u64, random: &mut Random) -> &'static str {
    match way % 5 {
        0 => {
            size.truncate(random.between(1, RECORD - 1));
            "short size"
        }
        1 => {
            size.extend((0..random.between(1, RECORD)).map(|_| 0));
            "long size"
        }
        2 => {
            let mosts = [MOST_RACKS, MOST_LANES, MOST_ROUNDS];
            let index = random.below(mosts.len());
            let outside = [0, mosts[index] + 1, random.between(mosts[index] + 1, 255)];
            size[index] = random.pick(&outside).unwrap_or_default() as u8;
            "size out of range"
        }
        3 => {
            size[RECORD - 1] = random.between(1, 255) as u8;
            "last byte of size not zero"
        }
        _ => {
            size.clear();
            "no size"
        }
    }
}

/// Makes a cue file bad, in one of five ways, and tells how.
pub fn spoil_cues(cues: &mut Vec<u8>, sizes: Sizes, way: u64, random: &mut Random) -> &'static str {
    let rack = random.below(sizes.racks()) as u8;
    let lane = random.below(sizes.lanes()) as u8;
    match way % 5 {
        0 => {
            let piece = [rack, lane, 1];
            cues.extend_from_slice(&piece[..random.between(1, 3)]);
            "short cue record"
        }
        1 => {
            for _ in 0..=MOST_CUES {
                cues.extend([rack, lane, random.byte(), 1]);
            }
            "65th cue"
        }
        2 => {
            insert(cues, [rack, lane, 0, 0], random);
            "cue code 0"
        }
        3 => {
            let past_the_racks = random.between(sizes.racks(), 255) as u8;
            insert(cues, [past_the_racks, lane, 1, 0], random);
            "cue rack out of range"
        }
        _ => {
            let past_the_lanes = random.between(sizes.lanes(), 255) as u8;
            insert(cues, [rack, past_the_lanes, 1, 0], random);
            "cue lane out of range"
        }
    }
}

/// Puts a record somewhere among the others.
fn insert(cues: &mut Vec<u8>, record: [u8; RECORD], random: &mut Random) {
    let start = RECORD * random.between(0, cues.len() / RECORD);
    cues.splice(start..start, record);
}
