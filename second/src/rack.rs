//! "The rack states are one fixed array of eight, of which n are used; each has its
//! round, its step, its first lane, what it has gathered (the cells read so far in its
//! present block) and, one per lane, its held value, result and news."

use crate::cell::{Cell, Value};
use crate::sizes::{Sizes, MOST_LANES, MOST_RACKS};

/// The first lane of a rack that has none.
pub const NO_LANE: u8 = 255;

/// Bytes of one rack state.
pub const RACK_LENGTH: usize = 163;

/// Bytes of the eight rack states.
pub const RACKS_LENGTH: usize = MOST_RACKS * RACK_LENGTH;

pub type Racks = [Rack; MOST_RACKS];

#[derive(Clone, Copy, Debug, Default, PartialEq, Eq)]
pub struct Rack {
    pub round: u8,
    pub step: u8,
    pub first_lane: u8,
    pub gathered_first: [Cell; MOST_RACKS],
    pub gathered_second: [Cell; MOST_RACKS],
    pub held: [Value; MOST_LANES],
    pub results: [Cell; MOST_LANES],
    pub news: [Value; MOST_LANES],
}

impl Rack {
    /// "every rack at round 1, step 0, no first lane, nothing gathered, no result or
    /// news, logs empty, holding its own #1 at place 0 in each lane".
    pub fn fresh(rack: usize, sizes: Sizes) -> Rack {
        let mut held = [Value::NONE; MOST_LANES];
        held[..sizes.lanes()].fill(Value {
            issuer: rack as u8,
            number: 1,
            ..Value::NONE
        });
        Rack {
            round: 1,
            first_lane: NO_LANE,
            held,
            ..Rack::default()
        }
    }

    pub fn from_bytes(bytes: &[u8; RACK_LENGTH]) -> Rack {
        let mut fields = Fields(bytes);
        let [round, step, first_lane] = fields.take();
        Rack {
            round,
            step,
            first_lane,
            gathered_first: fields.cells(),
            gathered_second: fields.cells(),
            held: fields.values(),
            results: fields.cells(),
            news: fields.values(),
        }
    }

    /// Adds the bytes of this rack to the given ones.
    pub fn write_to(&self, bytes: &mut Vec<u8>) {
        bytes.extend([self.round, self.step, self.first_lane]);
        bytes.extend(self.gathered_first.into_iter().flat_map(Cell::to_bytes));
        bytes.extend(self.gathered_second.into_iter().flat_map(Cell::to_bytes));
        bytes.extend(self.held.into_iter().flat_map(Value::to_bytes));
        bytes.extend(self.results.into_iter().flat_map(Cell::to_bytes));
        bytes.extend(self.news.into_iter().flat_map(Value::to_bytes));
    }
}

/// The bytes of a rack state that are not yet taken.
struct Fields<'a>(&'a [u8]);

impl Fields<'_> {
    fn take<const LENGTH: usize>(&mut self) -> [u8; LENGTH] {
        let mut field = [0; LENGTH];
        if let Some((taken, rest)) = self.0.split_at_checked(LENGTH) {
            field.copy_from_slice(taken);
            self.0 = rest;
        }
        field
    }

    fn cells<const COUNT: usize>(&mut self) -> [Cell; COUNT] {
        std::array::from_fn(|_| Cell::from_bytes(self.take()))
    }

    fn values<const COUNT: usize>(&mut self) -> [Value; COUNT] {
        std::array::from_fn(|_| Value::from_bytes(self.take()))
    }
}

/// The eight racks in their bytes; nothing when there are not exactly as many bytes.
pub fn racks_from_bytes(bytes: &[u8]) -> Option<Racks> {
    let bytes: &[u8; RACKS_LENGTH] = bytes.try_into().ok()?;
    let mut racks = [Rack::default(); MOST_RACKS];
    for (rack, state) in racks.iter_mut().zip(bytes.chunks_exact(RACK_LENGTH)) {
        *rack = Rack::from_bytes(state.try_into().ok()?);
    }
    Some(racks)
}

pub fn racks_to_bytes(racks: &Racks) -> Vec<u8> {
    let mut bytes = Vec::with_capacity(RACKS_LENGTH);
    for rack in racks {
        rack.write_to(&mut bytes);
    }
    bytes
}
