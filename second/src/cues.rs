//! "A cue record is 4 bytes: rack, lane, code (low byte first), code 1 to 65,535. The order
//! of records gives the numbers within a rack and lane, at most 64 each. The code is looked
//! up when a sheet is printed; a number past its list is an idle cue, code 0."

use crate::refusal::Refusal;
use crate::sizes::Sizes;

pub const MOST_CUES: usize = 64;

/// The codes of each rack and lane, in the order of their numbers.
#[derive(Clone, Debug, PartialEq, Eq)]
pub struct CueLists {
    sizes: Sizes,
    lists: Vec<Vec<u16>>,
}

impl CueLists {
    pub fn new(sizes: Sizes) -> CueLists {
        CueLists {
            sizes,
            lists: vec![Vec::new(); sizes.racks() * sizes.lanes()],
        }
    }

    /// Takes one cue record; a refused one changes nothing.
    pub fn add(&mut self, record: &[u8]) -> Result<(), Refusal> {
        let [rack, lane, low, high] = *record else {
            return Err(Refusal::Cue);
        };
        let code = u16::from_le_bytes([low, high]);
        let index = self.index(rack.into(), lane.into()).ok_or(Refusal::Cue)?;
        let list = &mut self.lists[index];
        if code == 0 || list.len() == MOST_CUES {
            return Err(Refusal::Cue);
        }
        list.push(code);
        Ok(())
    }

    /// The code of a cue, 0 for an idle one.
    pub fn code(&self, issuer: u8, lane: usize, number: u8) -> u16 {
        self.index(issuer.into(), lane)
            .zip(usize::from(number).checked_sub(1))
            .and_then(|(index, place)| self.lists[index].get(place))
            .copied()
            .unwrap_or(0)
    }

    fn index(&self, rack: usize, lane: usize) -> Option<usize> {
        (rack < self.sizes.racks() && lane < self.sizes.lanes())
            .then_some(rack * self.sizes.lanes() + lane)
    }
}
