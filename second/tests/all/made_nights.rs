//! What holds on every night, checked on made ones.

use std::collections::BTreeSet;

use second::logs::{agree, entries, length, Entry};
use second::maker::make;
use second::night::Night;
use second::refusal::number;
use second::sound::SoundNight;

use crate::driver::sheet_of;

const NIGHTS: u64 = 400;

/// Tables past this many bytes are tested for soundness only now and then.
const SMALL: usize = 3000;

/// The turns that each rack has taken.
type Taken = Vec<usize>;

fn play(seed: u64) -> (Night, Taken) {
    let made = make(seed);
    let sizes = made.summary.sizes;
    let mut night = SoundNight::fresh(sizes);
    let mut taken = vec![0; sizes.racks()];
    let mut replies = [0; 11];
    for (index, record) in made.files.turns.chunks(4).enumerate() {
        let reply = night.turn(record);
        replies[usize::from(number(&reply))] += 1;
        if reply.is_ok() {
            taken[usize::from(record[0])] += 1;
        }
        if sizes.cell_table_length() <= SMALL || index % 997 == 0 {
            assert!(night.night().is_sound(), "seed {seed} after turn {index}");
        }
    }
    assert_eq!(replies, made.summary.replies, "seed {seed}");
    assert!(night.night().is_sound(), "seed {seed}");
    (night.night().clone(), taken)
}

fn logs_of_lane_agree(night: &Night, lane: usize) -> bool {
    let used = |rack| {
        let log = night.log(rack, lane);
        &log[..2 * length(log)]
    };
    let racks = night.sizes().racks();
    (0..racks).all(|one| (0..one).all(|other| agree(used(one), used(other))))
}

/// The numbers of each issuer in a log run 1, 2, 3 and so on.
fn numbers_run(log: &[u8]) -> bool {
    let mut last = [0; 8];
    entries(log).all(|Entry { issuer, number }| {
        last[usize::from(issuer)] += 1;
        last[usize::from(issuer)] == number
    })
}

#[test]
fn what_holds_on_every_night() {
    for seed in 0..NIGHTS {
        let (night, taken) = play(seed);
        let (sizes, lanes) = (night.sizes(), 0..night.sizes().lanes());
        for lane in lanes.clone() {
            assert!(logs_of_lane_agree(&night, lane), "seed {seed} lane {lane}");
        }
        for (rack, turns) in taken.into_iter().enumerate() {
            let finished = usize::from(night.racks()[rack].round) - 1;
            assert_eq!(finished, turns / sizes.steps_of_round(), "seed {seed}");
            let logs: Vec<&[u8]> = lanes.clone().map(|lane| night.log(rack, lane)).collect();
            assert!(logs.iter().all(|log| numbers_run(log)), "seed {seed}");
            assert!(
                logs.iter().all(|log| length(log) <= finished),
                "seed {seed}"
            );
            // A round commits some cue, the same one in at most two rounds, and after the
            // second of them every rack has run it.
            let run: usize = logs.iter().map(|log| length(log)).sum();
            assert!(run >= finished / 2, "seed {seed}");
        }
    }
}

#[test]
fn the_sheet_tells_what_the_maker_saw() {
    for seed in 0..NIGHTS {
        let made = make(seed);
        let sheet = sheet_of(&made.files);
        let spoiled = |what: &str| {
            made.summary
                .mixed_in
                .iter()
                .any(|mixed| mixed.contains(what))
        };
        if spoiled("size") {
            assert_eq!(sheet, "bad size\n", "seed {seed}");
        } else if spoiled("cue") {
            assert!(sheet.starts_with("bad cues "), "seed {seed}");
            assert_eq!(sheet.lines().count(), 1, "seed {seed}");
        } else {
            let taken = made.summary.replies[0];
            let refused: u64 = made.summary.replies[1..].iter().sum();
            let line = format!(
                "\nturns {} taken {taken} refused {refused}\n",
                taken + refused
            );
            assert!(sheet.contains(&line), "seed {seed}");
            assert_eq!(sheet.matches("refused ").count() as u64, refused + 1);
        }
    }
}

#[test]
fn the_same_seed_gives_the_same_night() {
    for seed in [0, 1, 77, u64::MAX] {
        assert_eq!(make(seed).files, make(seed).files);
        assert_ne!(make(seed).files, make(seed ^ 1).files);
    }
}

#[test]
fn made_nights_are_of_every_kind() {
    let mut kinds = BTreeSet::new();
    for seed in 0..NIGHTS {
        let summary = make(seed).summary;
        let sizes = summary.sizes;
        kinds.insert(format!("racks {}", sizes.racks()));
        kinds.insert(format!("lanes {}", sizes.lanes()));
        kinds.insert(summary.schedule.name().to_string());
        kinds.insert(summary.preference.name().to_string());
        kinds.extend(summary.mixed_in.iter().map(|mixed| mixed.to_string()));
        for (number, count) in summary.replies.iter().enumerate() {
            if *count > 0 {
                kinds.insert(format!("reply {number}"));
            }
        }
    }
    // 8 + 4 sizes, 5 schedules, 6 preferences, 6 plans, 10 bad files, replies 0 and 3 to 7.
    assert_eq!(kinds.len(), 12 + 5 + 6 + 6 + 10 + 6, "{kinds:?}");
}
