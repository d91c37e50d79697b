//! How many tables of each sort were tried, and how many calls got each number.

use std::fmt::{self, Display};

use second::rack::RACK_LENGTH;
use second::seen::{never, SizesSeen};
use second::sizes::Sizes;
use second::step::Step;

use crate::card::{FIRST, NEITHER, SECOND};
use crate::tables::{wide, Tables};

/// What the whole run must reach.
pub const LEAST_TABLES: u64 = 200_000;

/// How a table was made.
#[derive(Clone, Copy, Debug, PartialEq, Eq)]
pub enum Sort {
    Reached,
    ByHand,
    Changed,
    RecordChanged,
    OutOfRange,
    OtherSizes,
    LengthOff,
}

impl Sort {
    pub const ALL: [Sort; 7] = [
        Sort::Reached,
        Sort::ByHand,
        Sort::Changed,
        Sort::RecordChanged,
        Sort::OutOfRange,
        Sort::OtherSizes,
        Sort::LengthOff,
    ];

    pub fn name(self) -> &'static str {
        match self {
            Sort::Reached => "reached by a night",
            Sort::ByHand => "sound, made by hand",
            Sort::Changed => "one to three bytes changed",
            Sort::RecordChanged => "a whole record changed",
            Sort::OutOfRange => "sizes out of range",
            Sort::OtherSizes => "other sizes in range",
            Sort::LengthOff => "a length not exact",
        }
    }

    /// Whether its tables are sound by the way they are made.
    pub fn is_sound(self) -> bool {
        matches!(self, Sort::Reached | Sort::ByHand)
    }
}

/// A call; its replies are counted by number.
#[derive(Clone, Copy, Debug, PartialEq, Eq)]
pub enum Call {
    Turn,
    Sound,
    LogEntry,
    Fresh,
    AddCue,
    CodeOf,
    Agree,
    Longer,
}

impl Call {
    pub const ALL: [Call; 8] = [
        Call::Turn,
        Call::Sound,
        Call::LogEntry,
        Call::Fresh,
        Call::AddCue,
        Call::CodeOf,
        Call::Agree,
        Call::Longer,
    ];

    pub fn name(self) -> &'static str {
        match self {
            Call::Turn => "turn",
            Call::Sound => "sound",
            Call::LogEntry => "log_entry",
            Call::Fresh => "fresh",
            Call::AddCue => "add_cue",
            Call::CodeOf => "code_of",
            Call::Agree => "agree",
            Call::Longer => "longer",
        }
    }

    /// The calls that reply with 0 or a refusal's number.
    fn refusing() -> impl Iterator<Item = Call> {
        let tells = |call: &Call| matches!(call, Call::Agree | Call::Longer);
        Call::ALL.into_iter().filter(move |call| !tells(call))
    }

    /// The numbers that a call can reply with, which all have to come up.
    pub fn numbers(self) -> &'static [usize] {
        match self {
            Call::Turn => &[0, 1, 2, 3, 4, 5, 6, 7, 8],
            Call::Sound | Call::Longer => &[0, 1, 2],
            Call::LogEntry => &[0, 1, 2, 9],
            Call::Fresh | Call::Agree => &[0, 1],
            Call::AddCue => &[0, 1, 10],
            Call::CodeOf => &[0, 1, 9],
        }
    }
}

/// Numbers 0 to 10; any other would be a difference.
const NUMBERS: usize = 11;

/// The six kinds of steps, and the last step of a round, which settles.
const STEPS: [&str; 7] = [
    "offer",
    "answer",
    "first write",
    "first read",
    "second write",
    "second read",
    "last of a round",
];

#[derive(Clone, Debug, Default)]
pub struct Tally {
    tables: [u64; Sort::ALL.len()],
    sound: [u64; Sort::ALL.len()],
    replies: [[u64; NUMBERS]; Call::ALL.len()],
    taken: [u64; STEPS.len()],
    sizes: SizesSeen,
    record_lengths: [u64; 9],
}

impl Tally {
    /// All tables so far.
    pub fn tables(&self) -> u64 {
        self.tables.iter().sum()
    }

    pub fn table(&mut self, sort: Sort) {
        self.tables[sort as usize] += 1;
    }

    /// A table that was found sound, so its sizes are those of its lengths.
    pub fn sound(&mut self, sort: Sort, tables: &Tables) {
        self.sound[sort as usize] += 1;
        let [n, k, rounds] = wide(tables.sizes);
        if let Ok(sizes) = Sizes::new(n, k, rounds) {
            self.sizes.add(sizes);
        }
    }

    pub fn reply(&mut self, call: Call, number: u8) {
        self.replies[call as usize][usize::from(number)] += 1;
    }

    /// A turn with its reply; a taken one by its kind of step.
    pub fn turn(&mut self, tables: &Tables, record: &[u8], number: u8) {
        self.reply(Call::Turn, number);
        self.record_lengths[record.len()] += 1;
        let [n, k, rounds] = wide(tables.sizes);
        if let (0, Ok(sizes)) = (number, Sizes::new(n, k, rounds)) {
            let rack = RACK_LENGTH * usize::from(record[0]);
            let (step, first_lane) = (tables.racks[rack + 1], tables.racks[rack + 2]);
            let kind = match Step::at(step.into(), first_lane.into(), sizes) {
                _ if usize::from(step) + 1 == sizes.steps_of_round() => 6,
                Step::Offer => 0,
                Step::Answer => 1,
                Step::FirstWrite { .. } => 2,
                Step::FirstRead { .. } => 3,
                Step::SecondWrite { .. } => 4,
                Step::SecondRead { .. } => 5,
            };
            self.taken[kind] += 1;
        }
    }

    /// A line for each thing that the run had to reach and did not.
    pub fn missing(&self) -> Vec<String> {
        // A short run cannot be asked for all, and is told that it is short.
        if self.tables() < LEAST_TABLES {
            return vec![format!("fewer than {LEAST_TABLES} tables were tried")];
        }
        let mut missing = self.sizes.missing();
        missing.extend(never(Sort::ALL.map(|sort| {
            let what = format!("a table of the sort: {}", sort.name());
            (what, self.tables[sort as usize])
        })));
        for call in Call::ALL {
            let counts = &self.replies[call as usize];
            missing.extend(never(call.numbers().iter().map(|number| {
                let what = format!("{} answered {number}", call.name());
                (what, counts[*number])
            })));
        }
        let taken = STEPS.iter().zip(self.taken);
        missing.extend(never(
            taken.map(|(name, count)| (format!("a taken turn: {name}"), count)),
        ));
        let lengths = self.record_lengths.iter().enumerate();
        missing.extend(never(lengths.map(|(length, count)| {
            let what = format!("a turn record of {length} bytes");
            (what, *count)
        })));
        missing
    }
}

impl Display for Tally {
    fn fmt(&self, out: &mut fmt::Formatter) -> fmt::Result {
        writeln!(out, "{:<28}{:>9}{:>12}", "sort of table", "tables", "sound")?;
        for sort in Sort::ALL {
            let (tables, sound) = (self.tables[sort as usize], self.sound[sort as usize]);
            writeln!(out, "{:<28}{tables:>9}{sound:>12}", sort.name())?;
        }
        write!(out, "{:<8}", "number")?;
        for call in Call::refusing() {
            write!(out, "{:>10}", call.name())?;
        }
        writeln!(out)?;
        for number in 0..NUMBERS {
            write!(out, "{number:<8}")?;
            for call in Call::refusing() {
                match self.replies[call as usize][number] {
                    0 if !call.numbers().contains(&number) => write!(out, "{:>10}", "")?,
                    count => write!(out, "{count:>10}")?,
                }
            }
            writeln!(out)?;
        }
        let [agree, longer] = [Call::Agree, Call::Longer].map(|call| self.replies[call as usize]);
        writeln!(out, "agree: no {}, yes {}", agree[0], agree[1])?;
        let [first, second, neither] =
            [FIRST, SECOND, NEITHER].map(|which| longer[usize::from(which)]);
        writeln!(
            out,
            "longer: first {first}, second {second}, neither {neither}"
        )?;
        write!(out, "taken turns:")?;
        for (name, count) in STEPS.iter().zip(self.taken) {
            write!(out, " {name} {count},")?;
        }
        writeln!(out, " all {}", self.taken.iter().sum::<u64>())?;
        writeln!(out, "records of 0 to 8 bytes: {:?}", self.record_lengths)?;
        write!(out, "{}", self.sizes.table("sound tables"))
    }
}

#[cfg(test)]
mod tests {
    use super::*;

    /// A tally in which every thing came up, each sort of table often enough.
    fn whole() -> Tally {
        let mut tally = Tally {
            tables: [LEAST_TABLES; Sort::ALL.len()],
            taken: [1; STEPS.len()],
            record_lengths: [1; 9],
            ..Tally::default()
        };
        for call in Call::ALL {
            for number in call.numbers() {
                tally.replies[call as usize][*number] = 1;
            }
        }
        tally.sizes = sizes_but(|_| false);
        tally
    }

    /// All sizes but some, in turn.
    fn sizes_but(is_left_out: impl Fn([u64; 3]) -> bool) -> SizesSeen {
        let mut seen = SizesSeen::default();
        for index in 0..512 {
            let sizes = [1 + index % 8, 1 + index / 8 % 4, 1 + index / 8 % 64];
            if !is_left_out(sizes) {
                let [n, k, rounds] = sizes;
                seen.add(Sizes::new(n, k, rounds).expect("sizes in range"));
            }
        }
        seen
    }

    /// What is told of a run in which one thing never came up.
    fn gap(spoil: impl FnOnce(&mut Tally)) -> Vec<String> {
        let mut tally = whole();
        spoil(&mut tally);
        tally.missing()
    }

    #[test]
    fn nothing_is_missing_where_all_came_up() {
        assert_eq!(whole().missing(), Vec::<String>::new());
    }

    #[test]
    fn every_number_of_every_call_is_asked_for() {
        for call in Call::ALL {
            for number in call.numbers() {
                let told = gap(|tally| tally.replies[call as usize][*number] = 0);
                let expected = format!("never came up: {} answered {number}", call.name());
                assert_eq!(told, [expected]);
            }
        }
    }

    #[test]
    fn every_sort_of_table_is_asked_for() {
        for sort in Sort::ALL {
            let told = gap(|tally| tally.tables[sort as usize] = 0);
            let expected = format!("never came up: a table of the sort: {}", sort.name());
            assert_eq!(told, [expected]);
        }
    }

    #[test]
    fn every_size_and_pair_is_asked_for() {
        let told = gap(|tally| tally.sizes = sizes_but(|[_, _, rounds]| rounds == 37));
        assert_eq!(told, ["never came up: R = 37"]);
        let told = gap(|tally| tally.sizes = sizes_but(|[n, k, _]| (n, k) == (3, 2)));
        assert_eq!(told, ["never came up: n = 3 with k = 2"]);
        let told = gap(|tally| tally.sizes = sizes_but(|[n, _, _]| n == 8));
        assert_eq!(told[0], "never came up: n = 8");
    }

    #[test]
    fn every_step_and_record_length_is_asked_for() {
        for (step, name) in STEPS.iter().enumerate() {
            let told = gap(|tally| tally.taken[step] = 0);
            assert_eq!(told, [format!("never came up: a taken turn: {name}")]);
        }
        for length in 0..9 {
            let told = gap(|tally| tally.record_lengths[length] = 0);
            let expected = format!("never came up: a turn record of {length} bytes");
            assert_eq!(told, [expected]);
        }
    }

    #[test]
    fn too_few_tables_are_told() {
        let told = gap(|tally| tally.tables = [1; Sort::ALL.len()]);
        assert_eq!(told, ["fewer than 200000 tables were tried"]);
        assert_eq!(Tally::default().missing(), told);
    }
}
