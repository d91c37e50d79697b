//! A card that is played rack by rack, and short ways to write values and sheets.

use std::io::BufReader;

use second::block;
use second::cell::{Cell, Section, Value};
use second::files::NightFiles;
use second::logs::entries;
use second::night::Night;
use second::rack::Rack;
use second::refusal::number;
use second::sizes::Sizes;
use second::sound::SoundNight;

pub fn sizes(racks: u64, lanes: u64, rounds: u64) -> Sizes {
    Sizes::new(racks, lanes, rounds).expect("sizes in range")
}

/// The value of a cue at a place, after a previous cue.
pub fn value(place: u8, cue: (u8, u8), previous: (u8, u8)) -> Value {
    Value::from_bytes([place, cue.0, cue.1, previous.0, previous.1])
}

/// The sheet of three files, as it is printed.
pub fn sheet_of(files: &NightFiles) -> String {
    let mut out = Vec::new();
    second::sheet::sheet(
        BufReader::new(files.size.as_slice()),
        BufReader::new(files.cues.as_slice()),
        BufReader::new(files.turns.as_slice()),
        &mut out,
    )
    .expect("bytes can be read and written");
    String::from_utf8(out).expect("a sheet is text")
}

#[derive(Clone)]
pub struct Card(pub SoundNight);

impl Card {
    pub fn new(racks: u64, lanes: u64, rounds: u64) -> Card {
        Card(SoundNight::fresh(sizes(racks, lanes, rounds)))
    }

    pub fn night(&self) -> &Night {
        self.0.night()
    }

    pub fn rack(&self, rack: u8) -> &Rack {
        &self.night().racks()[usize::from(rack)]
    }

    pub fn turn(&mut self, rack: u8) -> u8 {
        self.answer(rack, 255, 255)
    }

    pub fn answer(&mut self, rack: u8, lane: u8, source: u8) -> u8 {
        number(&self.0.turn(&[rack, lane, source, 0]))
    }

    pub fn turns(&mut self, rack: u8, count: usize) {
        for _ in 0..count {
            assert_eq!(self.turn(rack), 0);
        }
    }

    /// Plays a whole round of one rack; hands back the results of its lanes.
    pub fn round(&mut self, rack: u8, lane: u8, source: u8) -> Vec<Cell> {
        let steps = self.night().sizes().steps_of_round();
        assert_eq!(self.rack(rack).step, 0);
        self.turns(rack, 1);
        assert_eq!(self.answer(rack, lane, source), 0);
        self.turns(rack, steps - 3);
        let results = self.results_at_last_step(rack);
        self.turns(rack, 1);
        results
    }

    /// The results at the last step, whose read gives the last one.
    fn results_at_last_step(&self, rack: u8) -> Vec<Cell> {
        let sizes = self.night().sizes();
        let state = self.rack(rack);
        let lane_is_last = |lane: &usize| state.results[*lane] == Cell::EMPTY;
        let last_lane = (0..sizes.lanes()).find(lane_is_last).expect("a last lane");
        let last_rack = sizes.racks() - 1;
        let mut second = state.gathered_second;
        second[last_rack] =
            self.night()
                .cell(Section::Second, state.round.into(), last_lane, last_rack);
        let mut results = state.results[..sizes.lanes()].to_vec();
        results[last_lane] = block::result(rack.into(), &state.gathered_first, &second);
        results
    }

    pub fn log(&self, rack: u8, lane: usize) -> Vec<(u8, u8)> {
        entries(self.night().log(rack.into(), lane))
            .map(|entry| (entry.issuer, entry.number))
            .collect()
    }
}
