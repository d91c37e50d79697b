//! One call on one table, given to the card and to the second program.

use second::check_turns::hex;
use second::logs;
use second::refusal::{number, Refusal};

use crate::card::{self, Entry, Lent};
use crate::tables::{difference_in, wide, Tables};

/// A call in which the card and the second program differ.
#[derive(Clone, Debug)]
pub struct Difference {
    pub call: &'static str,
    /// What the call was given beside tables.
    pub given: String,
    pub what: String,
    /// The call as a line for `second check-turns`, where it has one.
    pub line: Option<String>,
}

/// The number of the reply that both give.
pub type Verdict = Result<u8, Box<Difference>>;

/// Bytes around each lent table, which no call may touch.
const FENCE: [u8; 16] = [0xa5; 16];

/// Bytes to lend, between two fences.
pub struct Fenced(Vec<u8>);

impl Fenced {
    pub fn new(bytes: &[u8]) -> Fenced {
        Fenced([&FENCE, bytes, &FENCE].concat())
    }

    pub fn bytes(&self) -> &[u8] {
        &self.0[FENCE.len()..self.0.len() - FENCE.len()]
    }

    pub fn bytes_mut(&mut self) -> &mut [u8] {
        let end = self.0.len() - FENCE.len();
        &mut self.0[FENCE.len()..end]
    }

    /// The first byte outside what was lent that is not as before.
    pub fn difference(&self) -> Option<String> {
        let (before, rest) = self.0.split_at(FENCE.len());
        let after = &rest[rest.len() - FENCE.len()..];
        difference_in("before a lent table", before, &FENCE)
            .or_else(|| difference_in("behind a lent table", after, &FENCE))
    }
}

/// The three tables of a call, each between two fences.
pub struct FencedTables([Fenced; 3]);

impl FencedTables {
    pub fn new(tables: &Tables) -> FencedTables {
        let tables = [&tables.cells, &tables.logs, &tables.decisions];
        FencedTables(tables.map(|table| Fenced::new(table)))
    }

    pub fn lend(&mut self) -> Lent<'_> {
        let [cells, logs, decisions] = &mut self.0;
        Lent {
            cells: cells.bytes_mut(),
            logs: logs.bytes_mut(),
            decisions: decisions.bytes_mut(),
        }
    }

    /// The first byte, lent or around it, that is not the second program's.
    pub fn difference(&self, second: &Tables) -> Option<String> {
        let [cells, logs, decisions] = &self.0;
        difference_in("cells", cells.bytes(), &second.cells)
            .or_else(|| difference_in("logs", logs.bytes(), &second.logs))
            .or_else(|| difference_in("decisions", decisions.bytes(), &second.decisions))
            .or_else(|| self.0.iter().find_map(Fenced::difference))
    }
}

/// Where the numbers are the same, the first other difference.
pub fn reply_difference(card: u8, second: u8) -> Option<String> {
    (card != second).then(|| format!("reply: card {card}, second {second}"))
}

/// The soundness test, which changes nothing.
pub fn sound(tables: &Tables) -> Verdict {
    let second = number(&tables.night().and_then(|night| {
        if night.is_sound() {
            Ok(())
        } else {
            Err(Refusal::NotSound)
        }
    }));
    let mut fenced = FencedTables::new(tables);
    let card = card::sound(tables.sizes, &fenced.lend(), &tables.racks);
    match reply_difference(card, second).or_else(|| fenced.difference(tables)) {
        None => Ok(second),
        Some(what) => Err(Box::new(Difference {
            call: "night_sound",
            given: format!("sizes {:?}", tables.sizes),
            what,
            line: Some(format!("sound {}", tables.fields())),
        })),
    }
}

/// One turn: the same reply and every byte the same, and on a refusal every byte as before.
pub fn turn(tables: &Tables, record: &[u8]) -> Verdict {
    let (second, after) = second_turn(tables, record);
    let mut fenced = FencedTables::new(tables);
    let fenced_record = Fenced::new(record);
    let mut racks = tables.racks;
    let card = card::turn(
        tables.sizes,
        &mut fenced.lend(),
        &mut racks,
        fenced_record.bytes(),
    );
    let difference = reply_difference(card, second)
        .or_else(|| fenced.difference(&after))
        .or_else(|| difference_in("racks", &racks, &after.racks))
        .or_else(|| difference_in("record", fenced_record.bytes(), record))
        .or_else(|| fenced_record.difference())
        .or_else(|| refusal_changed(second, tables, &after));
    match difference {
        None => Ok(second),
        Some(what) => Err(Box::new(Difference {
            call: "night_turn",
            given: format!("sizes {:?}, record {record:?}", tables.sizes),
            what,
            line: Some(format!("turn {} {}", tables.fields(), hex(record))),
        })),
    }
}

/// The second program's reply to a turn, and its tables afterwards.
fn second_turn(tables: &Tables, record: &[u8]) -> (u8, Tables) {
    match tables.night() {
        Ok(mut night) => {
            let reply = number(&night.turn(record));
            (reply, Tables::of(&night))
        }
        // Tables that are no night were not touched.
        Err(refusal) => (refusal.number(), tables.clone()),
    }
}

/// "A refusal returns its number and zeros; tables, states and lists stay as before."
fn refusal_changed(number: u8, before: &Tables, after: &Tables) -> Option<String> {
    let difference = Tables::difference(after, before).filter(|_| number != 0)?;
    Some(format!("a refusal changed {difference} before the turn"))
}

/// One log query.
pub fn log_entry(tables: &Tables, query: [usize; 3]) -> Verdict {
    let [rack, lane, place] = wide(query);
    let reply = logs::entry(wide(tables.sizes), &tables.logs, rack, lane, place);
    let refused = number(&reply);
    let found = reply.unwrap_or_default();
    let second = Entry {
        number: refused,
        issuer: found.issuer,
        cue: found.number,
    };
    let fenced = Fenced::new(&tables.logs);
    let card = card::log_entry(tables.sizes, fenced.bytes(), query);
    let difference = (card != second)
        .then(|| format!("reply: card {card:?}, second {second:?}"))
        .or_else(|| difference_in("logs", fenced.bytes(), &tables.logs))
        .or_else(|| fenced.difference());
    match difference {
        None => Ok(refused),
        Some(what) => {
            let [n, k, rounds] = tables.sizes;
            let logs = hex(&tables.logs);
            Err(Box::new(Difference {
                call: "night_log_entry",
                given: format!("sizes {:?}, rack, lane, place {query:?}", tables.sizes),
                what,
                line: Some(format!(
                    "entry {n} {k} {rounds} {logs} {rack} {lane} {place}"
                )),
            }))
        }
    }
}

#[cfg(test)]
mod tests {
    use super::*;

    #[test]
    fn a_touched_fence_is_told() {
        let mut fenced = Fenced::new(&[1, 2, 3]);
        assert_eq!(fenced.bytes(), [1, 2, 3]);
        assert_eq!(fenced.difference(), None);
        fenced.bytes_mut()[2] = 9;
        assert_eq!(fenced.difference(), None);
        fenced.0[FENCE.len() + 3] = 0;
        assert_eq!(
            fenced.difference().as_deref(),
            Some("behind a lent table, byte 0: card 0, second 165")
        );
    }
}
