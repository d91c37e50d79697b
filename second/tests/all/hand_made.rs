//! Turns on hand-made tables: a refusal changes nothing, a taken turn leaves a sound table.

use second::cell::{Cell, Section, Value, ADOPTED, COMMITTED, WRITTEN};
use second::maker::make;
use second::night::Night;
use second::rack::{racks_from_bytes, RACKS_LENGTH};
use second::random::Random;
use second::refusal::Refusal;
use second::sizes::Sizes;
use second::sound::SoundNight;

fn given(sizes: Sizes) -> [u64; 3] {
    [sizes.racks(), sizes.lanes(), sizes.rounds()].map(|size| size as u64)
}

/// The night of a seed after some of its turns.
fn part_of_night(seed: u64, random: &mut Random) -> Night {
    let made = make(seed);
    let turns = random.between(0, made.files.turns.len() / 4);
    let mut night = SoundNight::fresh(made.summary.sizes);
    for record in made.files.turns.chunks(4).take(turns) {
        let _ = night.turn(record);
    }
    night.night().clone()
}

fn any_cue(sizes: Sizes, random: &mut Random) -> (u8, u8) {
    let number = random.between(1, sizes.rounds() + 1);
    (random.below(sizes.racks()) as u8, number as u8)
}

fn any_value(place: usize, sizes: Sizes, random: &mut Random) -> Value {
    let (issuer, number) = any_cue(sizes, random);
    let (previous_issuer, previous_number) = match place {
        0 => (0, 0),
        _ => any_cue(sizes, random),
    };
    Value {
        place: place as u8,
        issuer,
        number,
        previous_issuer,
        previous_number,
    }
}

fn any_cell(section: Section, sizes: Sizes, random: &mut Random) -> Cell {
    let place = random.between(0, sizes.rounds().min(3));
    let value = any_value(place, sizes, random);
    match (section, random.below(4)) {
        (_, 0) => Cell::EMPTY,
        (Section::Second, 1) => Cell::new(ADOPTED, value),
        (Section::Second, _) => Cell::new(COMMITTED, value),
        _ => Cell::new(WRITTEN, value),
    }
}

/// Changes some cells, decisions, logs and gathered cells to others of their form.
fn hand_made(night: &Night, random: &mut Random) -> Night {
    let sizes = night.sizes();
    let mut cells = night.cells().to_vec();
    let mut logs = night.logs().to_vec();
    let mut decisions = night.decisions().to_vec();
    let mut racks = *night.racks();
    for _ in 0..random.between(1, 4) {
        let sections = [Section::Offers, Section::First, Section::Second];
        let section = random.pick(&sections).unwrap_or(Section::Offers);
        let start = section as usize * sizes.section_length()
            + 8 * random.below(sizes.section_length() / 8);
        let cell = any_cell(section, sizes, random);
        cells[start..start + 8].copy_from_slice(&cell.to_record());
    }
    if random.one_in(3) {
        let index = random.below(decisions.len());
        decisions[index] = random.below(sizes.racks()) as u8;
    }
    let (rack, lane) = (random.below(sizes.racks()), random.below(sizes.lanes()));
    if random.one_in(2) {
        let length = random.between(0, sizes.rounds());
        let start = (rack * sizes.lanes() + lane) * 2 * sizes.rounds();
        let log = &mut logs[start..start + 2 * sizes.rounds()];
        log.fill(0);
        for record in log.chunks_exact_mut(2).take(length) {
            let (issuer, number) = any_cue(sizes, random);
            record.copy_from_slice(&[issuer, number]);
        }
        racks[rack].held[lane] = any_value(length, sizes, random);
    }
    let other = random.below(sizes.racks());
    if other != rack && !racks[rack].gathered_first[other].is_empty() {
        racks[rack].gathered_first[other] = any_cell(Section::First, sizes, random);
    }
    if !racks[rack].results[lane].is_empty() {
        let place = random.between(0, sizes.rounds());
        racks[rack].results[lane].value = any_value(place, sizes, random);
    }
    Night::lent(given(sizes), cells, logs, decisions, racks).expect("exact lengths")
}

/// Gives one turn; hands back whether it was taken.
fn check_turn(night: &Night, record: &[u8]) -> Result<(), Refusal> {
    let mut after = night.clone();
    let reply = after.turn(record);
    match reply {
        Ok(()) => assert!(after.is_sound(), "{record:?} on {night:?}"),
        Err(_) => assert_eq!(after, *night),
    }
    reply
}

#[test]
fn turns_on_hand_made_tables() {
    let mut random = Random::new(1);
    let (mut sound, mut taken, mut too_long) = (0, 0, 0);
    for seed in 0..600 {
        let night = part_of_night(seed, &mut random);
        if night.sizes().section_length() > 4000 {
            continue;
        }
        let mut night = hand_made(&night, &mut random);
        sound += usize::from(night.is_sound());
        for _ in 0..40 {
            let rack = random.below(night.sizes().racks()) as u8;
            let record = if usize::from(night.racks()[usize::from(rack)].step) == 1 {
                let lane = random.below(night.sizes().lanes()) as u8;
                [rack, lane, random.below(night.sizes().racks()) as u8, 0]
            } else {
                [rack, 255, 255, 0]
            };
            match check_turn(&night, &record) {
                Ok(()) => {
                    taken += 1;
                    night.turn(&record).expect("taken once, taken again");
                }
                Err(Refusal::NotSound) => break,
                Err(refusal) => too_long += usize::from(refusal == Refusal::LogTooLong),
            }
        }
    }
    assert!(sound > 200, "{sound}");
    assert!(taken > 4_000, "{taken}");
    assert!(too_long > 0, "{too_long}");
}

#[test]
fn any_bytes_get_a_reply() {
    let mut random = Random::new(2);
    for seed in 0..400 {
        let night = part_of_night(seed, &mut random);
        if night.sizes().section_length() > 4000 {
            continue;
        }
        let mut tables = [
            night.cells().to_vec(),
            night.logs().to_vec(),
            night.decisions().to_vec(),
            second::rack::racks_to_bytes(night.racks()),
        ];
        for _ in 0..random.below(4) {
            let table = &mut tables[random.below(4)];
            let index = random.below(table.len());
            table[index] = random.byte();
        }
        if seed % 8 == 0 {
            let table = &mut tables[random.below(4)];
            table.iter_mut().for_each(|byte| *byte = random.byte());
        }
        let [cells, logs, decisions, racks] = tables;
        assert_eq!(racks.len(), RACKS_LENGTH);
        let racks = racks_from_bytes(&racks).expect("eight racks");
        let night = Night::lent(given(night.sizes()), cells, logs, decisions, racks)
            .expect("exact lengths");
        for rack in 0..=night.sizes().racks() as u8 {
            let _ = check_turn(&night, &[rack, 255, 255, 0]);
            let _ = check_turn(&night, &[rack, 0, 0, 0]);
        }
    }
}
