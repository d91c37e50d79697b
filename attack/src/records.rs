//! Turn records for a night: right ones, and wrong ones of every kind and of every length to 8.

use second::cell::Section;
use second::night::Night;
use second::random::Random;
use second::records::RECORD;

const NONE: u8 = 255;

/// A record that a sound night takes, save where settling makes a log too long.
pub fn right(night: &Night, rack: usize, random: &mut Random) -> [u8; RECORD] {
    let answer = if is_at_answer(night, rack) {
        let admissible = answers(night, rack, Stands::Admissible);
        random.pick(&admissible)
    } else {
        None
    };
    let (lane, source) = answer.unwrap_or((NONE, NONE));
    [rack as u8, lane, source, 0]
}

/// A record of any kind, mostly one that is refused.
pub fn wrong(night: &Night, random: &mut Random) -> Vec<u8> {
    let (n, k) = (night.sizes().racks(), night.sizes().lanes());
    let rack = random.below(n);
    let mut record = right(night, rack, random);
    match random.below(10) {
        0 => return of_any_length(record, random),
        1 => record[3] = random.between(1, 255) as u8,
        2 => record[0] = random.pick(&[n, n + 1, 8, 9, 255]).unwrap_or(n) as u8,
        3 => record[0] = random.byte(),
        4 => {
            let index = random.between(1, 2);
            record[index] = random.byte();
        }
        5 => {
            // One past the last lane and rack, and the last ones.
            record[1] = random.pick(&[k - 1, k, 255]).unwrap_or(k) as u8;
            record[2] = random.pick(&[n - 1, n, 255]).unwrap_or(n) as u8;
        }
        6 => record = [0; RECORD].map(|_| random.byte()),
        _ => return wrong_answer(night, random).unwrap_or(record).to_vec(),
    }
    record.to_vec()
}

/// A record cut short, or with bytes behind it.
fn of_any_length(record: [u8; RECORD], random: &mut Random) -> Vec<u8> {
    let length = random.between(0, 2 * RECORD);
    let behind = random.pick(&[0, NONE]).unwrap_or(0);
    let bytes = record.into_iter().chain(std::iter::repeat(behind));
    bytes.take(length).collect()
}

/// Refusals 6 and 7: an answer without an offer or for another source, where a rack is at one.
fn wrong_answer(night: &Night, random: &mut Random) -> Option<[u8; RECORD]> {
    let racks = (0..night.sizes().racks()).filter(|rack| is_at_answer(night, *rack));
    let rack = random.pick(&racks.collect::<Vec<_>>())?;
    let wanted = random.pick(&[Stands::WithoutOffer, Stands::AgainstDecision])?;
    let answers = answers(night, rack, wanted);
    let (lane, source) = random.pick(&answers)?;
    Some([rack as u8, lane, source, 0])
}

#[derive(Clone, Copy, Debug, PartialEq, Eq)]
enum Stands {
    Admissible,
    WithoutOffer,
    AgainstDecision,
}

/// The answers, lane and source, that stand so in a rack's present round.
fn answers(night: &Night, rack: usize, wanted: Stands) -> Vec<(u8, u8)> {
    let round = usize::from(night.racks()[rack].round);
    let mut answers = Vec::new();
    for lane in 0..night.sizes().lanes() {
        let decided = night.decision(round, lane);
        for source in 0..night.sizes().racks() {
            let stands = if night.cell(Section::Offers, round, lane, source).is_empty() {
                Stands::WithoutOffer
            } else if decided.is_some_and(|other| other != source) {
                Stands::AgainstDecision
            } else {
                Stands::Admissible
            };
            if stands == wanted {
                answers.push((lane as u8, source as u8));
            }
        }
    }
    answers
}

fn is_at_answer(night: &Night, rack: usize) -> bool {
    night.racks()[rack].step == 1
}

#[cfg(test)]
mod tests {
    use super::*;
    use crate::by_hand::by_hand;
    use second::refusal::number;
    use second::sizes::Sizes;

    #[test]
    fn wrong_records_get_every_number_that_a_record_can_get() {
        let mut numbers = [0; 9];
        let mut lengths = [0; 9];
        for seed in 0..6_000 {
            let mut random = Random::new(seed);
            let sizes = Sizes::new(3, 2, 2).expect("sizes in range");
            let mut night = by_hand(sizes, &mut random).night().expect("exact lengths");
            let record = wrong(&night, &mut random);
            lengths[record.len()] += 1;
            numbers[usize::from(number(&night.turn(&record)))] += 1;
        }
        assert!(lengths.iter().all(|count| *count > 0), "{lengths:?}");
        assert!(
            numbers[3..=7].iter().all(|count| *count > 20),
            "{numbers:?}"
        );
    }
}
