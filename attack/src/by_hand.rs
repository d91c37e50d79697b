//! Sound tables that no run could give, made from document 01's paragraph on sound tables and
//! nothing else: no soundness test has a say in them.
//!
//! Cells, logs and decisions are drawn first. Then rack after rack is put at a step, and what
//! "the cells a rack has written hold a value" asks is filled in; nothing that a rack needs is
//! ever taken back, since its own cells are its own and offers and decisions only grow.

use second::cell::{Cell, Section, Value, ADOPTED, COMMITTED, WRITTEN};
use second::rack::{Rack, Racks};
use second::random::Random;
use second::sizes::{Sizes, CELL_RECORD, LOG_RECORD, MOST_RACKS};

use crate::tables::{given, rack_bytes, Tables};

const NONE: u8 = 255;

/// The sound tables that a generator gives next.
pub fn by_hand(sizes: Sizes, random: &mut Random) -> Tables {
    let mut maker = Maker::new(sizes, random);
    for rack in 0..maker.n {
        maker.racks[rack] = maker.rack(rack);
    }
    Tables {
        sizes: given(sizes),
        cells: maker.cells,
        logs: maker.logs,
        decisions: maker.decisions,
        racks: rack_bytes(&maker.racks),
    }
}

struct Maker<'a> {
    n: usize,
    k: usize,
    rounds: usize,
    /// A few values that are drawn again and again, so that cells agree and tie.
    favourites: Vec<Value>,
    /// So many cells in eight are full.
    full_in_eight: usize,
    /// The round that more racks are in than in others.
    common_round: usize,
    cells: Vec<u8>,
    logs: Vec<u8>,
    decisions: Vec<u8>,
    racks: Racks,
    random: &'a mut Random,
}

impl Maker<'_> {
    fn new(sizes: Sizes, random: &mut Random) -> Maker<'_> {
        let [n, k, rounds] = given(sizes);
        let mut maker = Maker {
            n,
            k,
            rounds,
            favourites: Vec::new(),
            full_in_eight: random.pick(&[1, 4, 7, 8]).unwrap_or(4),
            common_round: random.between(1, rounds),
            cells: Vec::with_capacity(24 * rounds * k * n),
            logs: Vec::with_capacity(2 * rounds * k * n),
            decisions: Vec::with_capacity(rounds * k),
            racks: [Rack::default(); MOST_RACKS],
            random,
        };
        maker.fill_logs();
        maker.draw_favourites();
        maker.fill_cells();
        maker.fill_decisions();
        maker
    }

    /// "used entries have issuer below n and number 1 to R + 1, unused ones are zero".
    fn fill_logs(&mut self) {
        let style = self.random.below(3);
        for _ in 0..self.n * self.k {
            let length = match style {
                0 => self.random.between(0, self.rounds),
                1 => self.random.between(self.rounds - 1, self.rounds),
                _ => self.random.between(0, self.rounds.min(2)),
            };
            for place in 0..self.rounds {
                let entry = if place < length { self.cue() } else { [0, 0] };
                self.logs.extend(entry);
            }
        }
    }

    fn draw_favourites(&mut self) {
        for _ in 0..self.random.between(1, 4) {
            let rack = self.random.below(self.n);
            let lane = self.random.below(self.k);
            let value = self.value_near(self.log_length(rack, lane));
            self.favourites.push(value);
        }
    }

    fn fill_cells(&mut self) {
        for section in [Section::Offers, Section::First, Section::Second] {
            for _ in 0..self.rounds * self.k * self.n {
                let record = self.cell(section).to_record();
                self.cells.extend(record);
            }
        }
    }

    /// "decisions are 255 or below n".
    fn fill_decisions(&mut self) {
        let undecided_in_four = self.random.below(5);
        for _ in 0..self.rounds * self.k {
            let decided = self.random.below(4) >= undecided_in_four;
            let source = if decided { self.source() } else { NONE };
            self.decisions.push(source);
        }
    }

    /// A rack at any step of any round, or after its last round.
    fn rack(&mut self, rack: usize) -> Rack {
        let mut state = Rack {
            first_lane: NONE,
            ..Rack::default()
        };
        for lane in 0..self.k {
            // "held place equals log length"
            state.held[lane] = self.value_at(self.log_length(rack, lane));
        }
        let round = if self.random.one_in(2) {
            self.common_round
        } else {
            self.random.between(1, self.rounds)
        };
        state.round = round as u8;
        let n = self.n;
        let done = match self.random.below(10) {
            // "round is 1 to R + 1, with step 0 at R + 1"
            0 => {
                state.round = self.rounds as u8 + 1;
                return state;
            }
            1 => return state,
            2 | 3 => {
                self.write_offers(rack, round);
                state.step = 1;
                return state;
            }
            4 => 0,
            5 => self.random.between(1, n),
            6 => n + 1,
            7 => self.random.between(n + 2, 2 * n + 1),
            _ => {
                self.put_in_block(&mut state, rack, self.k - 1, 2 * n + 1);
                return state;
            }
        };
        let visit = self.random.below(self.k);
        self.put_in_block(&mut state, rack, visit, done);
        state
    }

    /// A rack with so many blocks of its round behind it, and so many steps of the next one.
    fn put_in_block(&mut self, state: &mut Rack, rack: usize, visit: usize, done: usize) {
        let round = usize::from(state.round);
        self.write_offers(rack, round);
        let first = self.random.below(self.k);
        self.decide(round, first);
        state.first_lane = first as u8;
        state.step = (2 + visit * (2 * self.n + 2) + done) as u8;
        // "a block of 2n + 2 steps for m, and one for each other lane in rising order"
        let mut lanes = vec![first];
        lanes.extend((0..self.k).filter(|lane| *lane != first));
        for &lane in &lanes[..visit] {
            self.finish(state, rack, lane);
        }
        self.begin(state, rack, lanes[visit], done);
    }

    /// "in its present round the cells a rack has written hold a value": its offers.
    fn write_offers(&mut self, rack: usize, round: usize) {
        for lane in 0..self.k {
            self.write_offer(round, lane, rack);
        }
    }

    fn write_offer(&mut self, round: usize, lane: usize, rack: usize) {
        if self.is_empty(Section::Offers, round, lane, rack) {
            let offer = Cell::new(WRITTEN, self.value());
            self.put(Section::Offers, round, lane, rack, offer);
        }
    }

    /// "a rack's first lane is decided, for a source whose offer there is not empty".
    fn decide(&mut self, round: usize, lane: usize) {
        let index = (round - 1) * self.k + lane;
        if self.decisions[index] == NONE {
            self.decisions[index] = self.source();
        }
        self.write_offer(round, lane, self.decisions[index].into());
    }

    /// "each lane it has finished has a result and news", and its cells hold a value.
    fn finish(&mut self, state: &mut Rack, rack: usize, lane: usize) {
        let round = usize::from(state.round);
        let length = self.log_length(rack, lane);
        let first = Cell::new(WRITTEN, self.value());
        let second = Cell::new(self.outcome_mark(), self.value());
        self.put(Section::First, round, lane, rack, first);
        self.put(Section::Second, round, lane, rack, second);
        state.results[lane] = Cell::new(self.outcome_mark(), self.value_near(length));
        state.news[lane] = self.value_near(length);
    }

    /// The lane under way: "what it read back from itself equals them", and any other cells read.
    fn begin(&mut self, state: &mut Rack, rack: usize, lane: usize, done: usize) {
        let (n, round) = (self.n, usize::from(state.round));
        if done == 0 {
            return;
        }
        let agreeing = self.random.one_in(3);
        let own = self.value_near(self.log_length(rack, lane));
        let first = Cell::new(WRITTEN, own);
        self.put(Section::First, round, lane, rack, first);
        for source in 0..n.min(done - 1) {
            state.gathered_first[source] = match source {
                source if source == rack => first,
                _ if agreeing => self.empty_or(first),
                _ => self.cell(Section::First),
            };
        }
        if done < n + 2 {
            return;
        }
        let agreed = Cell::new(COMMITTED, own);
        let second = if agreeing {
            agreed
        } else {
            Cell::new(self.outcome_mark(), self.value())
        };
        self.put(Section::Second, round, lane, rack, second);
        for source in 0..done - n - 2 {
            state.gathered_second[source] = match source {
                source if source == rack => second,
                _ if agreeing => self.empty_or(agreed),
                _ => self.cell(Section::Second),
            };
        }
        // The last cell to be read; its rack comes after this one and has not used it yet.
        if agreeing && rack + 1 < n {
            let last = self.empty_or(agreed);
            self.put(Section::Second, round, lane, n - 1, last);
        }
    }

    fn outcome_mark(&mut self) -> u8 {
        if self.random.one_in(3) {
            ADOPTED
        } else {
            COMMITTED
        }
    }

    fn empty_or(&mut self, cell: Cell) -> Cell {
        if self.random.one_in(2) {
            Cell::EMPTY
        } else {
            cell
        }
    }

    /// "marks fit their section (0 or 1; 0 or 1; 0, 2 or 3), records marked 0 are all zeros".
    fn cell(&mut self, section: Section) -> Cell {
        if self.random.below(8) >= self.full_in_eight {
            return Cell::EMPTY;
        }
        let mark = match section {
            Section::Offers | Section::First => WRITTEN,
            Section::Second => self.outcome_mark(),
        };
        Cell::new(mark, self.value())
    }

    fn value(&mut self) -> Value {
        let favourite = if self.random.one_in(4) {
            None
        } else {
            self.random.pick(&self.favourites)
        };
        let place = self.random.between(0, self.rounds);
        favourite.unwrap_or_else(|| self.value_at(place))
    }

    /// A value whose place settling compares with a log of this length.
    fn value_near(&mut self, length: usize) -> Value {
        let place = match self.random.below(8) {
            0 => self.random.between(0, self.rounds),
            1 => length.saturating_sub(1),
            2..=4 => length,
            5 | 6 => length + 1,
            _ => self.rounds,
        };
        self.value_at(place.min(self.rounds))
    }

    /// "the previous pair keeps the same ranges, but is 0 and 0 exactly at place 0".
    fn value_at(&mut self, place: usize) -> Value {
        let [issuer, number] = self.cue();
        let previous = if place == 0 { [0, 0] } else { self.cue() };
        Value {
            place: place as u8,
            issuer,
            number,
            previous_issuer: previous[0],
            previous_number: previous[1],
        }
    }

    /// "issuers are below n, number is 1 to R + 1".
    fn cue(&mut self) -> [u8; LOG_RECORD] {
        let issuer = self.source();
        // Numbers at the ends of their range come up more often.
        let number = match self.random.below(4) {
            0 => 1,
            1 => self.rounds + 1,
            _ => self.random.between(1, self.rounds + 1),
        };
        [issuer, number as u8]
    }

    fn source(&mut self) -> u8 {
        self.random.below(self.n) as u8
    }

    fn log_length(&self, rack: usize, lane: usize) -> usize {
        let start = (rack * self.k + lane) * self.rounds * LOG_RECORD;
        let log = &self.logs[start..start + self.rounds * LOG_RECORD];
        let is_used = |entry: &&[u8]| **entry != [0, 0];
        log.chunks_exact(LOG_RECORD).take_while(is_used).count()
    }

    /// "record ((round - 1)·k + lane)·n + rack" of a section.
    fn start(&self, section: Section, round: usize, lane: usize, rack: usize) -> usize {
        let records = section as usize * self.rounds * self.k * self.n;
        CELL_RECORD * (records + ((round - 1) * self.k + lane) * self.n + rack)
    }

    fn is_empty(&self, section: Section, round: usize, lane: usize, rack: usize) -> bool {
        self.cells[self.start(section, round, lane, rack)] == 0
    }

    fn put(&mut self, section: Section, round: usize, lane: usize, rack: usize, cell: Cell) {
        let start = self.start(section, round, lane, rack);
        self.cells[start..start + CELL_RECORD].copy_from_slice(&cell.to_record());
    }
}

#[cfg(test)]
mod tests {
    use super::*;
    use second::refusal::Refusal;

    fn any_sizes(random: &mut Random) -> Sizes {
        let (n, k) = (random.between(1, 8) as u64, random.between(1, 4) as u64);
        Sizes::new(n, k, random.between(1, 9) as u64).expect("sizes in range")
    }

    #[test]
    fn the_second_program_finds_them_sound() {
        for seed in 0..3_000 {
            let mut random = Random::new(seed);
            let sizes = any_sizes(&mut random);
            let night = by_hand(sizes, &mut random).night().expect("exact lengths");
            assert!(night.is_sound(), "seed {seed}");
        }
    }

    #[test]
    fn they_reach_what_no_run_reaches() {
        let (mut taken, mut too_long) = (0, 0);
        for seed in 0..3_000 {
            let mut random = Random::new(seed);
            let sizes = any_sizes(&mut random);
            let mut night = by_hand(sizes, &mut random).night().expect("exact lengths");
            match night.turn(&[0, 255, 255, 0]) {
                Ok(()) => taken += 1,
                Err(refusal) => too_long += usize::from(refusal == Refusal::LogTooLong),
            }
        }
        assert!(taken > 1_000, "{taken}");
        assert!(too_long > 50, "{too_long}");
    }
}
