//! "write its second cell: committed with its own value if every non-empty first cell
//! read equals it; else adopted, with the value of greatest place read, its own if it
//! ties, else the lowest rack's".
//!
//! "The last read gives the lane's result. Committed: every non-empty second cell read is
//! marked committed and equals its own. Otherwise adopted, with the first committed cell's
//! value if one was read, else the value in its own second cell. News: the value of
//! greatest place among all non-empty cells read, first cells before second, the earliest
//! on a tie."

use crate::cell::{Cell, Value, ADOPTED, COMMITTED};
use crate::sizes::MOST_RACKS;

/// The cells read in a block, by rack.
pub type Gathered = [Cell; MOST_RACKS];

/// What a rack writes into its second cell after reading all first cells.
pub fn second_cell(rack: usize, first: &Gathered) -> Cell {
    let own = first[rack].value;
    if non_empty(first).all(|cell| cell.value == own) {
        return Cell::new(COMMITTED, own);
    }
    let greatest = earliest_of_greatest_place(non_empty(first));
    let value = if own.place == greatest.place {
        own
    } else {
        greatest
    };
    Cell::new(ADOPTED, value)
}

/// A lane's result after reading all second cells.
pub fn result(rack: usize, first: &Gathered, second: &Gathered) -> Cell {
    let own = Cell::new(COMMITTED, first[rack].value);
    if non_empty(second).all(|cell| *cell == own) {
        return own;
    }
    let committed = non_empty(second).find(|cell| cell.mark == COMMITTED);
    Cell::new(ADOPTED, committed.unwrap_or(&second[rack]).value)
}

/// A lane's news after reading all second cells.
pub fn news(first: &Gathered, second: &Gathered) -> Value {
    earliest_of_greatest_place(non_empty(first).chain(non_empty(second)))
}

fn non_empty(cells: &Gathered) -> impl Iterator<Item = &Cell> {
    cells.iter().filter(|cell| !cell.is_empty())
}

fn earliest_of_greatest_place<'a>(cells: impl Iterator<Item = &'a Cell>) -> Value {
    cells
        .map(|cell| cell.value)
        .reduce(|greatest, value| {
            if value.place > greatest.place {
                value
            } else {
                greatest
            }
        })
        .unwrap_or(Value::NONE)
}
