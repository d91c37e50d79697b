//! "They are tested in this order": records that the card refuses, a kind for each refusal that
//! a file can cause, and noise.

use crate::night::Night;
use crate::random::Random;
use crate::records::RECORD;
use crate::refusal::Refusal;
use crate::sizes::{MOST_LANES, MOST_RACKS};
use crate::step::Step;

use super::answers::{answers_standing, Standing};
use super::sleep::has_finished;

/// A record that is most likely refused, of a kind that the night allows just now.
pub fn wrong_record(night: &Night, random: &mut Random) -> [u8; RECORD] {
    let wrong = match random.below(5) {
        0 => of_bad_form(night, random),
        1 => of_a_finished_rack(night, random),
        2 => Some(noise(random)),
        _ => None,
    };
    wrong
        .or_else(|| of_bad_lane_or_source(night, random))
        .unwrap_or_else(|| noise(random))
}

/// Refusals 6 and 7: a bad answer for a rack at its answer step, where there is one.
pub fn wrong_answer(night: &Night, rack: usize, random: &mut Random) -> Option<[u8; RECORD]> {
    let refusal = random.pick(&[Refusal::NoOffer, Refusal::OtherSource])?;
    refused_with(refusal, night, rack, random)
}

/// A record that gets a refusal, where the night allows one with this rack to take its turn.
pub fn refused_with(
    refusal: Refusal,
    night: &Night,
    rack: usize,
    random: &mut Random,
) -> Option<[u8; RECORD]> {
    match refusal {
        Refusal::Record => of_bad_form(night, random),
        Refusal::Finished => of_a_finished_rack(night, random),
        Refusal::LaneOrSource => of_bad_lane_or_source(night, random),
        Refusal::NoOffer => answer_standing(night, rack, Standing::NoOffer, random),
        Refusal::OtherSource => answer_standing(night, rack, Standing::DecidedForAnother, random),
        _ => None,
    }
}

fn answer_standing(
    night: &Night,
    rack: usize,
    standing: Standing,
    random: &mut Random,
) -> Option<[u8; RECORD]> {
    if !is_at_answer(night, rack) {
        return None;
    }
    let (lane, source) = random.pick(&answers_standing(night, rack, standing))?;
    Some([rack as u8, lane as u8, source as u8, 0])
}

/// Refusal 3: a last byte that is not zero, or a rack that is not there.
fn of_bad_form(night: &Night, random: &mut Random) -> Option<[u8; RECORD]> {
    let racks = night.sizes().racks();
    let rack = random.below(racks) as u8;
    let not_zero = random.between(1, 255) as u8;
    let past_the_racks = random.between(racks, 255) as u8;
    let records = [
        [rack, 255, 255, not_zero],
        [racks as u8, 255, 255, 0],
        [past_the_racks, 255, 255, 0],
    ];
    random.pick(&records)
}

/// Refusal 4.
fn of_a_finished_rack(night: &Night, random: &mut Random) -> Option<[u8; RECORD]> {
    let finished = racks_where(night, |rack| has_finished(night, rack));
    let rack = random.pick(&finished)? as u8;
    let records = [[rack, 255, 255, 0], [rack, 0, 0, 0], [rack, 255, 0, 0]];
    random.pick(&records)
}

/// Refusal 5: an answer elsewhere than at an answer step, or one that names what is not there.
fn of_bad_lane_or_source(night: &Night, random: &mut Random) -> Option<[u8; RECORD]> {
    let playing = racks_where(night, |rack| !has_finished(night, rack));
    let rack = random.pick(&playing)?;
    let (lanes, racks) = (night.sizes().lanes(), night.sizes().racks());
    let (lane, source) = (random.below(lanes) as u8, random.below(racks) as u8);
    let pairs = if is_at_answer(night, rack) {
        let past_the_lanes = random.between(lanes, 255) as u8;
        let past_the_racks = random.between(racks, 255) as u8;
        [
            (255, 255),
            (lanes as u8, source),
            (lane, racks as u8),
            (past_the_lanes, source),
            (lane, past_the_racks),
        ]
    } else {
        [
            (lane, source),
            (lane, 255),
            (255, source),
            (254, 255),
            (255, 254),
        ]
    };
    let (lane, source) = random.pick(&pairs)?;
    Some([rack as u8, lane, source, 0])
}

/// Bytes of no plan, small ones more often since those can mean something.
fn noise(random: &mut Random) -> [u8; RECORD] {
    std::array::from_fn(|_| match random.below(4) {
        0 => random.below(MOST_RACKS + 1) as u8,
        1 => random.below(MOST_LANES + 1) as u8,
        2 => 255,
        _ => random.byte(),
    })
}

fn racks_where(night: &Night, condition: impl Fn(usize) -> bool) -> Vec<usize> {
    (0..night.sizes().racks())
        .filter(|rack| condition(*rack))
        .collect()
}

pub fn is_at_answer(night: &Night, rack: usize) -> bool {
    let state = &night.racks()[rack];
    let step = Step::at(state.step.into(), state.first_lane.into(), night.sizes());
    !has_finished(night, rack) && step == Step::Answer
}
