//! "n racks, 1 to 8. k lanes, 1 to 4. R rounds, 1 to 64."

use crate::refusal::Refusal;

pub const MOST_RACKS: usize = 8;
pub const MOST_LANES: usize = 4;
pub const MOST_ROUNDS: usize = 64;

/// Bytes of one record of the cell table.
pub const CELL_RECORD: usize = 8;
/// Bytes of one record of the log table.
pub const LOG_RECORD: usize = 2;

/// Sizes within their ranges; no others can be made, so nothing reckoned from them overflows.
#[derive(Clone, Copy, Debug, PartialEq, Eq)]
pub struct Sizes {
    racks: usize,
    lanes: usize,
    rounds: usize,
}

impl Sizes {
    pub const LARGEST: Sizes = Sizes {
        racks: MOST_RACKS,
        lanes: MOST_LANES,
        rounds: MOST_ROUNDS,
    };

    pub fn new(racks: u64, lanes: u64, rounds: u64) -> Result<Sizes, Refusal> {
        Ok(Sizes {
            racks: from_one_to(MOST_RACKS, racks)?,
            lanes: from_one_to(MOST_LANES, lanes)?,
            rounds: from_one_to(MOST_ROUNDS, rounds)?,
        })
    }

    /// The sizes in the bytes of a size file: "4 bytes: n, k, R, 0".
    pub fn from_bytes(bytes: &[u8]) -> Result<Sizes, Refusal> {
        match *bytes {
            [racks, lanes, rounds, 0] => Sizes::new(racks.into(), lanes.into(), rounds.into()),
            _ => Err(Refusal::Size),
        }
    }

    pub fn racks(self) -> usize {
        self.racks
    }

    pub fn lanes(self) -> usize {
        self.lanes
    }

    pub fn rounds(self) -> usize {
        self.rounds
    }

    /// "A round of one rack is 2 + k(2n + 2) steps."
    pub fn steps_of_round(self) -> usize {
        2 + self.lanes * self.steps_of_block()
    }

    /// "Then a block of 2n + 2 steps".
    pub fn steps_of_block(self) -> usize {
        2 * self.racks + 2
    }

    /// "Cell table: exactly 24·R·k·n bytes."
    pub fn cell_table_length(self) -> usize {
        3 * self.section_length()
    }

    pub fn section_length(self) -> usize {
        CELL_RECORD * self.rounds * self.lanes * self.racks
    }

    /// "Log table: 2·R·k·n bytes".
    pub fn log_table_length(self) -> usize {
        self.log_length() * self.lanes * self.racks
    }

    /// Bytes of one log, "R per lane".
    pub fn log_length(self) -> usize {
        LOG_RECORD * self.rounds
    }

    /// "Decision table: R·k bytes".
    pub fn decision_table_length(self) -> usize {
        self.rounds * self.lanes
    }
}

fn from_one_to(most: usize, given: u64) -> Result<usize, Refusal> {
    match usize::try_from(given) {
        Ok(size) if (1..=most).contains(&size) => Ok(size),
        _ => Err(Refusal::Size),
    }
}
