//! The tables and states that a call is given, with sizes and lengths that may be any.

use second::check_turns::hex;
use second::night::Night;
use second::rack::{racks_from_bytes, racks_to_bytes, Rack, Racks, RACKS_LENGTH};
use second::refusal::Refusal;
use second::sizes::{Sizes, MOST_RACKS};

use crate::card::{GivenSizes, RackBytes};

#[derive(Clone, Debug, PartialEq, Eq)]
pub struct Tables {
    pub sizes: GivenSizes,
    pub cells: Vec<u8>,
    pub logs: Vec<u8>,
    pub decisions: Vec<u8>,
    pub racks: RackBytes,
}

impl Tables {
    pub fn of(night: &Night) -> Tables {
        Tables {
            sizes: given(night.sizes()),
            cells: night.cells().to_vec(),
            logs: night.logs().to_vec(),
            decisions: night.decisions().to_vec(),
            racks: rack_bytes(night.racks()),
        }
    }

    /// The second program's night over these tables, or its refusal.
    pub fn night(&self) -> Result<Night, Refusal> {
        Night::lent(
            wide(self.sizes),
            self.cells.clone(),
            self.logs.clone(),
            self.decisions.clone(),
            racks_of(&self.racks),
        )
    }

    /// The first byte that the card left otherwise than the second program.
    pub fn difference(card: &Tables, second: &Tables) -> Option<String> {
        difference_in("cells", &card.cells, &second.cells)
            .or_else(|| difference_in("logs", &card.logs, &second.logs))
            .or_else(|| difference_in("decisions", &card.decisions, &second.decisions))
            .or_else(|| difference_in("racks", &card.racks, &second.racks))
    }

    /// These tables as the fields of a line for `second check-turns`.
    pub fn fields(&self) -> String {
        let [n, k, rounds] = self.sizes;
        let (cells, logs) = (hex(&self.cells), hex(&self.logs));
        let (decisions, racks) = (hex(&self.decisions), hex(&self.racks));
        format!("{n} {k} {rounds} {cells} {logs} {decisions} {racks}")
    }
}

/// The first differing byte of a table, with its place and both values.
pub fn difference_in(table: &str, card: &[u8], second: &[u8]) -> Option<String> {
    if card.len() != second.len() {
        let (card, second) = (card.len(), second.len());
        return Some(format!("{table}: card has {card} bytes, second {second}"));
    }
    let place = card.iter().zip(second).position(|(one, two)| one != two)?;
    let (card, second) = (card[place], second[place]);
    Some(format!(
        "{table}, byte {place}: card {card}, second {second}"
    ))
}

pub fn given(sizes: Sizes) -> GivenSizes {
    [sizes.racks(), sizes.lanes(), sizes.rounds()]
}

/// Numbers as wide as the second program takes them.
pub fn wide<const COUNT: usize>(numbers: [usize; COUNT]) -> [u64; COUNT] {
    numbers.map(|number| number as u64)
}

pub fn rack_bytes(racks: &Racks) -> RackBytes {
    let mut bytes = [0; RACKS_LENGTH];
    bytes.copy_from_slice(&racks_to_bytes(racks));
    bytes
}

pub fn racks_of(bytes: &RackBytes) -> Racks {
    // There are exactly as many bytes as eight racks have.
    racks_from_bytes(bytes).unwrap_or([Rack::default(); MOST_RACKS])
}

#[cfg(test)]
mod tests {
    use super::*;

    #[test]
    fn the_first_differing_byte_is_told() {
        let night = Night::fresh(Sizes::LARGEST);
        let second = Tables::of(&night);
        let mut card = second.clone();
        assert_eq!(Tables::difference(&card, &second), None);
        card.racks[163] = 7;
        card.racks[164] = 7;
        assert_eq!(
            Tables::difference(&card, &second).as_deref(),
            Some("racks, byte 163: card 7, second 1")
        );
        card.logs[9] = 1;
        assert_eq!(
            Tables::difference(&card, &second).as_deref(),
            Some("logs, byte 9: card 1, second 0")
        );
        card.cells.pop();
        assert_eq!(
            Tables::difference(&card, &second).as_deref(),
            Some("cells: card has 49151 bytes, second 49152")
        );
    }

    #[test]
    fn tables_of_a_night_are_that_night() {
        let night = Night::fresh(Sizes::LARGEST);
        assert_eq!(Tables::of(&night).night(), Ok(night));
    }
}
