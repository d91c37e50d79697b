//! "A cell record: mark (0 empty, 1 offer or first cell, 2 adopted, 3 committed),
//! place, issuer, number, previous issuer, previous number, two zero bytes. A value
//! is the five middle fields; all five must match for equal values."

use crate::sizes::{Sizes, CELL_RECORD};

pub const EMPTY: u8 = 0;
pub const WRITTEN: u8 = 1;
pub const ADOPTED: u8 = 2;
pub const COMMITTED: u8 = 3;

/// The three sections of the cell table, in their order there.
#[derive(Clone, Copy, Debug, PartialEq, Eq)]
pub enum Section {
    Offers,
    First,
    Second,
}

#[derive(Clone, Copy, Debug, Default, PartialEq, Eq)]
pub struct Value {
    pub place: u8,
    pub issuer: u8,
    pub number: u8,
    pub previous_issuer: u8,
    pub previous_number: u8,
}

impl Value {
    /// Five zeros, where there is no value.
    pub const NONE: Value = Value {
        place: 0,
        issuer: 0,
        number: 0,
        previous_issuer: 0,
        previous_number: 0,
    };

    pub fn from_bytes(bytes: [u8; 5]) -> Value {
        let [place, issuer, number, previous_issuer, previous_number] = bytes;
        Value {
            place,
            issuer,
            number,
            previous_issuer,
            previous_number,
        }
    }

    pub fn to_bytes(self) -> [u8; 5] {
        [
            self.place,
            self.issuer,
            self.number,
            self.previous_issuer,
            self.previous_number,
        ]
    }

    /// "place is at most R, issuers are below n, number is 1 to R + 1, and the previous
    /// pair keeps the same ranges, but is 0 and 0 exactly at place 0".
    pub fn is_sound(self, sizes: Sizes) -> bool {
        let previous_is_sound = if self.place == 0 {
            (self.previous_issuer, self.previous_number) == (0, 0)
        } else {
            is_cue(self.previous_issuer, self.previous_number, sizes)
        };
        usize::from(self.place) <= sizes.rounds()
            && is_cue(self.issuer, self.number, sizes)
            && previous_is_sound
    }
}

/// Whether an issuer is below n and a number 1 to R + 1.
pub fn is_cue(issuer: u8, number: u8, sizes: Sizes) -> bool {
    usize::from(issuer) < sizes.racks() && (1..=sizes.rounds() + 1).contains(&usize::from(number))
}

#[derive(Clone, Copy, Debug, Default, PartialEq, Eq)]
pub struct Cell {
    pub mark: u8,
    pub value: Value,
}

impl Cell {
    pub const EMPTY: Cell = Cell {
        mark: EMPTY,
        value: Value::NONE,
    };

    pub fn new(mark: u8, value: Value) -> Cell {
        Cell { mark, value }
    }

    pub fn from_bytes(bytes: [u8; 6]) -> Cell {
        let [mark, value @ ..] = bytes;
        Cell::new(mark, Value::from_bytes(value))
    }

    pub fn to_bytes(self) -> [u8; 6] {
        let [place, issuer, number, previous_issuer, previous_number] = self.value.to_bytes();
        [
            self.mark,
            place,
            issuer,
            number,
            previous_issuer,
            previous_number,
        ]
    }

    /// The cell in a record of the cell table, whatever its two spare bytes are.
    pub fn from_record(record: [u8; CELL_RECORD]) -> Cell {
        let [cell @ .., _, _] = record;
        Cell::from_bytes(cell)
    }

    pub fn to_record(self) -> [u8; CELL_RECORD] {
        let mut record = [0; CELL_RECORD];
        record[..6].copy_from_slice(&self.to_bytes());
        record
    }

    pub fn is_empty(self) -> bool {
        self.mark == EMPTY
    }

    /// "marks fit their section (0 or 1; 0 or 1; 0, 2 or 3), records marked 0 are all zeros".
    pub fn is_sound(self, section: Section, sizes: Sizes) -> bool {
        match (self.mark, section) {
            (EMPTY, _) => self.value == Value::NONE,
            (WRITTEN, Section::Offers | Section::First)
            | (ADOPTED | COMMITTED, Section::Second) => self.value.is_sound(sizes),
            _ => false,
        }
    }
}
