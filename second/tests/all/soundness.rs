//! Each kind of damage makes tables unsound; what is not tied to anything does not.

use second::cell::{Cell, Section, Value, ADOPTED, COMMITTED, WRITTEN};
use second::night::Night;
use second::rack::Racks;

use crate::driver::{value, Card};

/// The parts of a night, free to be damaged.
struct Parts {
    cells: Vec<u8>,
    logs: Vec<u8>,
    decisions: Vec<u8>,
    racks: Racks,
}

impl Parts {
    /// Two racks, two lanes, four rounds. Rack 0 has run 0#1 in both lanes, then won lane 1
    /// from rack 1 in round 2, finished it, and is one read short of finishing lane 0. Rack 1
    /// has made its offers of round 2.
    fn new() -> Parts {
        let mut card = Card::new(2, 2, 4);
        card.round(0, 0, 0);
        card.round(1, 1, 1);
        card.turns(1, 1);
        card.turns(0, 1);
        assert_eq!(card.answer(0, 1, 1), 0);
        card.turns(0, 11);
        let night = card.night();
        Parts {
            cells: night.cells().to_vec(),
            logs: night.logs().to_vec(),
            decisions: night.decisions().to_vec(),
            racks: *night.racks(),
        }
    }

    fn night(self) -> Night {
        Night::lent([2, 2, 4], self.cells, self.logs, self.decisions, self.racks)
            .expect("exact lengths")
    }

    fn record(&mut self, section: Section, round: usize, lane: usize, rack: usize) -> &mut [u8] {
        let record = ((round - 1) * 2 + lane) * 2 + rack;
        let start = section as usize * 128 + record * 8;
        &mut self.cells[start..start + 8]
    }

    fn put(&mut self, section: Section, round: usize, lane: usize, rack: usize, cell: Cell) {
        self.record(section, round, lane, rack)
            .copy_from_slice(&cell.to_record());
    }
}

type Change = (&'static str, fn(&mut Parts));

fn check(changes: &[Change], sound: bool) {
    for (what, change) in changes {
        let mut parts = Parts::new();
        change(&mut parts);
        assert_eq!(parts.night().is_sound(), sound, "{what}");
    }
}

#[test]
fn undamaged_tables_are_sound() {
    check(&[("nothing", |_| {})], true);
}

#[test]
fn damaged_records_are_found() {
    check(
        &[
            ("adopted offer", |parts| {
                parts.record(Section::Offers, 1, 0, 0)[0] = 2
            }),
            ("committed first cell", |parts| {
                parts.record(Section::First, 1, 0, 0)[0] = 3
            }),
            ("second cell marked 1", |parts| {
                parts.record(Section::Second, 1, 0, 0)[0] = 1
            }),
            ("mark 4", |parts| {
                parts.record(Section::Second, 1, 0, 0)[0] = 4
            }),
            ("empty with a mark", |parts| {
                parts.record(Section::Offers, 4, 1, 1)[0] = 1
            }),
            ("empty with a place", |parts| {
                parts.record(Section::Offers, 4, 1, 1)[1] = 1
            }),
            ("empty with a number", |parts| {
                parts.record(Section::Second, 4, 1, 1)[3] = 1
            }),
            ("first spare byte", |parts| {
                parts.record(Section::First, 1, 0, 0)[6] = 1
            }),
            ("last spare byte", |parts| {
                parts.record(Section::Second, 4, 1, 1)[7] = 1
            }),
        ],
        false,
    );
}

#[test]
fn unsound_values_are_found_in_every_section() {
    let unsound = [
        [5, 0, 1, 0, 1],
        [0, 2, 1, 0, 0],
        [0, 0, 0, 0, 0],
        [0, 0, 6, 0, 0],
        [0, 0, 1, 0, 1],
        [0, 0, 1, 1, 0],
        [1, 0, 1, 2, 1],
        [1, 0, 1, 0, 0],
        [1, 0, 1, 1, 0],
        [1, 0, 1, 0, 6],
    ];
    let marks = [
        (Section::Offers, WRITTEN),
        (Section::First, WRITTEN),
        (Section::Second, ADOPTED),
        (Section::Second, COMMITTED),
    ];
    for (section, mark) in marks {
        for bytes in unsound {
            let mut parts = Parts::new();
            let cell = Cell::new(mark, Value::from_bytes(bytes));
            parts.put(section, 4, 0, 0, cell);
            assert!(!parts.night().is_sound(), "{section:?} {cell:?}");
        }
        for bytes in [[0, 1, 5, 0, 0], [4, 1, 5, 1, 5], [1, 0, 1, 0, 1]] {
            let mut parts = Parts::new();
            let cell = Cell::new(mark, Value::from_bytes(bytes));
            parts.put(section, 4, 0, 0, cell);
            assert!(parts.night().is_sound(), "{section:?} {cell:?}");
        }
    }
}

#[test]
fn damaged_decisions_and_logs_are_found() {
    check(
        &[
            ("decision past the racks", |parts| parts.decisions[7] = 2),
            ("decision 254", |parts| parts.decisions[7] = 254),
            ("entry of no rack", |parts| parts.logs[0] = 2),
            ("entry number 0", |parts| {
                parts.logs[16..18].copy_from_slice(&[1, 0])
            }),
            ("entry number too large", |parts| parts.logs[1] = 6),
            ("entry after a zero one", |parts| parts.logs[5] = 1),
            ("entry lost", |parts| parts.logs[1] = 0),
            ("entry more than held", |parts| parts.logs[3] = 2),
        ],
        false,
    );
}

#[test]
fn damaged_counters_are_found() {
    check(
        &[
            ("round 0", |parts| parts.racks[1].round = 0),
            ("round R + 2", |parts| parts.racks[1].round = 6),
            ("step at round R + 1", |parts| parts.racks[1].round = 5),
            ("step past the round", |parts| parts.racks[0].step = 14),
            ("step 255", |parts| parts.racks[0].step = 255),
            ("first lane past the lanes", |parts| {
                parts.racks[0].first_lane = 2
            }),
            ("no first lane in a block", |parts| {
                parts.racks[0].first_lane = 255
            }),
            ("first lane before the answer", |parts| {
                parts.racks[1].first_lane = 0
            }),
            ("unused rack with a round", |parts| parts.racks[2].round = 1),
            ("unused rack without lane", |parts| {
                parts.racks[7].first_lane = 255
            }),
            ("unused rack that holds", |parts| {
                parts.racks[3].held[0].number = 1
            }),
        ],
        false,
    );
}

#[test]
fn damaged_rack_states_are_found() {
    check(
        &[
            ("held place", |parts| {
                parts.racks[0].held[0] = value(2, (0, 2), (0, 1))
            }),
            ("held number 0", |parts| parts.racks[0].held[0].number = 0),
            ("held previous", |parts| {
                parts.racks[1].held[0].previous_number = 1
            }),
            ("held past the lanes", |parts| {
                parts.racks[0].held[2].number = 1
            }),
            ("gathered mark", |parts| {
                parts.racks[0].gathered_first[1].mark = 2
            }),
            ("gathered value", |parts| {
                parts.racks[0].gathered_first[1].value.issuer = 2
            }),
            ("gathered too early", |parts| {
                parts.racks[0].gathered_second[1] = Cell::new(ADOPTED, value(0, (0, 1), (0, 0)));
            }),
            ("gathered past the racks", |parts| {
                parts.racks[0].gathered_first[2] = Cell::new(WRITTEN, value(0, (0, 1), (0, 0)));
            }),
            ("gathered before a block", |parts| {
                parts.racks[1].gathered_first[0] = Cell::new(WRITTEN, value(0, (0, 1), (0, 0)));
            }),
            ("own first cell misread", |parts| {
                parts.racks[0].gathered_first[0].value.number = 3;
            }),
            ("own second cell misread", |parts| {
                parts.racks[0].gathered_second[0].mark ^= 1;
            }),
            ("no result", |parts| parts.racks[0].results[1] = Cell::EMPTY),
            ("result marked 1", |parts| {
                parts.racks[0].results[1].mark = 1
            }),
            ("unsound result", |parts| {
                parts.racks[0].results[1].value.issuer = 2
            }),
            ("no news", |parts| parts.racks[0].news[1] = Value::NONE),
            ("unsound news", |parts| parts.racks[0].news[1].number = 6),
            ("result too early", |parts| {
                parts.racks[0].results[0] = parts.racks[0].results[1];
            }),
            ("news too early", |parts| {
                parts.racks[0].news[0] = parts.racks[0].news[1]
            }),
            ("result before a block", |parts| {
                parts.racks[1].results[0] = parts.racks[0].results[1];
            }),
            ("result past the lanes", |parts| {
                parts.racks[0].results[3] = parts.racks[0].results[1];
            }),
            ("news past the lanes", |parts| {
                parts.racks[0].news[2].place = 1
            }),
        ],
        false,
    );
}

#[test]
fn racks_that_do_not_fit_the_tables_are_found() {
    check(
        &[
            ("first lane not decided", |parts| parts.decisions[3] = 255),
            ("source without offer", |parts| {
                parts.racks[1].step = 0;
                parts.put(Section::Offers, 2, 1, 1, Cell::EMPTY);
            }),
            ("own offer lost", |parts| {
                parts.put(Section::Offers, 2, 0, 1, Cell::EMPTY)
            }),
            ("own offer lost in a block", |parts| {
                parts.put(Section::Offers, 2, 0, 0, Cell::EMPTY);
            }),
            ("first cell of a finished lane lost", |parts| {
                parts.put(Section::First, 2, 1, 0, Cell::EMPTY);
            }),
            ("second cell of a finished lane lost", |parts| {
                parts.put(Section::Second, 2, 1, 0, Cell::EMPTY);
            }),
            ("first cell of the block lost", |parts| {
                parts.put(Section::First, 2, 0, 0, Cell::EMPTY);
            }),
            ("second cell of the block lost", |parts| {
                parts.put(Section::Second, 2, 0, 0, Cell::EMPTY);
            }),
            ("first cell differs from its reading", |parts| {
                parts.record(Section::First, 2, 0, 0)[3] = 5;
            }),
            ("second cell differs from its reading", |parts| {
                parts.record(Section::Second, 2, 0, 0)[0] ^= 1;
            }),
        ],
        false,
    );
}

#[test]
fn what_is_tied_to_nothing_may_be_anything_of_its_form() {
    check(
        &[
            ("cell of another round", |parts| {
                parts.put(Section::First, 1, 0, 0, Cell::EMPTY);
            }),
            ("cell not yet written", |parts| {
                let cell = Cell::new(WRITTEN, value(4, (1, 5), (1, 5)));
                parts.put(Section::First, 2, 0, 1, cell);
            }),
            ("cell of a rack that is elsewhere", |parts| {
                let cell = Cell::new(COMMITTED, value(3, (1, 2), (0, 5)));
                parts.put(Section::Second, 2, 0, 1, cell);
            }),
            ("gathered of another rack", |parts| {
                parts.racks[0].gathered_first[1] = Cell::new(WRITTEN, value(4, (1, 5), (1, 5)));
            }),
            ("decision of another round", |parts| parts.decisions[7] = 1),
            ("result of a finished lane", |parts| {
                parts.racks[0].results[1] = Cell::new(ADOPTED, value(4, (1, 5), (1, 5)));
            }),
            ("news of a finished lane", |parts| {
                parts.racks[0].news[1] = value(2, (0, 1), (1, 1));
            }),
            ("finished offer cell is other than what was held", |parts| {
                let cell = Cell::new(WRITTEN, value(3, (0, 1), (1, 1)));
                parts.put(Section::Offers, 2, 0, 0, cell);
            }),
        ],
        true,
    );
}

#[test]
fn a_written_cell_is_asked_for_before_it_is_read_back() {
    for (turns, section) in [(1, Section::First), (4, Section::Second)] {
        let mut card = Card::new(2, 1, 1);
        card.turns(1, 1);
        assert_eq!(card.answer(1, 0, 1), 0);
        card.turns(1, turns);
        let night = card.night();
        let mut cells = night.cells().to_vec();
        let written = section as usize * 16 + 8;
        assert!(night.is_sound());
        cells[written..written + 8].fill(0);
        let (logs, decisions) = (night.logs().to_vec(), night.decisions().to_vec());
        let damaged = Night::lent([2, 1, 1], cells, logs, decisions, *night.racks());
        assert!(!damaged.expect("exact lengths").is_sound(), "{section:?}");
    }
}
