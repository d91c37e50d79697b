//! "a reply names one lane, its value was offered at that lane in that round, and no lane has
//! two values": the answers that the card admits.

use crate::cell::Section;
use crate::night::Night;
use crate::random::Random;
use crate::records::RECORD;

/// Which admissible answers a night's racks get more often.
#[derive(Clone, Copy, Debug, PartialEq, Eq)]
pub enum Preference {
    Any,
    OwnSource,
    OtherSource,
    LaneByRack,
    DecidedLane,
    FreeLane,
}

impl Preference {
    pub const ALL: [Preference; 6] = [
        Preference::Any,
        Preference::OwnSource,
        Preference::OtherSource,
        Preference::LaneByRack,
        Preference::DecidedLane,
        Preference::FreeLane,
    ];

    pub fn name(self) -> &'static str {
        match self {
            Preference::Any => "any",
            Preference::OwnSource => "own-source",
            Preference::OtherSource => "other-source",
            Preference::LaneByRack => "lane-by-rack",
            Preference::DecidedLane => "decided-lane",
            Preference::FreeLane => "free-lane",
        }
    }

    fn likes(self, night: &Night, rack: usize, (lane, source): (usize, usize)) -> bool {
        let round = usize::from(night.racks()[rack].round);
        match self {
            Preference::Any => true,
            Preference::OwnSource => source == rack,
            Preference::OtherSource => source != rack,
            Preference::LaneByRack => lane == rack % night.sizes().lanes(),
            Preference::DecidedLane => night.decision(round, lane).is_some(),
            Preference::FreeLane => night.decision(round, lane).is_none(),
        }
    }
}

/// How an answer would be taken in a round.
#[derive(Clone, Copy, Debug, PartialEq, Eq)]
pub enum Standing {
    Admissible,
    NoOffer,
    DecidedForAnother,
}

fn standing(night: &Night, round: usize, (lane, source): (usize, usize)) -> Standing {
    let decided = night.decision(round, lane);
    if night.cell(Section::Offers, round, lane, source).is_empty() {
        Standing::NoOffer
    } else if decided.is_some_and(|other| other != source) {
        Standing::DecidedForAnother
    } else {
        Standing::Admissible
    }
}

/// All lanes and sources that stand so in the present round of a rack at its answer step.
pub fn answers_standing(night: &Night, rack: usize, wanted: Standing) -> Vec<(usize, usize)> {
    let round = usize::from(night.racks()[rack].round);
    (0..night.sizes().lanes())
        .flat_map(|lane| (0..night.sizes().racks()).map(move |source| (lane, source)))
        .filter(|answer| standing(night, round, *answer) == wanted)
        .collect()
}

/// A record with one of the admissible answers, more often a preferred one.
pub fn answer_record(
    night: &Night,
    rack: usize,
    preference: Preference,
    random: &mut Random,
) -> Option<[u8; RECORD]> {
    let admissible = answers_standing(night, rack, Standing::Admissible);
    let preferred: Vec<_> = admissible
        .iter()
        .copied()
        .filter(|answer| preference.likes(night, rack, *answer))
        .collect();
    let answers = if preferred.is_empty() || random.one_in(4) {
        admissible
    } else {
        preferred
    };
    let (lane, source) = random.pick(&answers)?;
    Some([rack as u8, lane as u8, source as u8, 0])
}
