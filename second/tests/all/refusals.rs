//! Each refusal, and that it leaves everything as it was.

use second::cell::{Cell, Section, Value, COMMITTED, WRITTEN};
use second::night::{fresh, Night};
use second::rack::{Rack, Racks};
use second::refusal::{number, Refusal};

use crate::driver::{sizes, value, Card};

/// The number of a turn, which must leave a refusing night as it was.
fn reply(night: &Night, record: &[u8]) -> u8 {
    let mut after = night.clone();
    let number = number(&after.turn(record));
    assert_eq!(number != 0, after == *night);
    number
}

#[test]
fn one_sizes_and_lengths() {
    let night = Night::fresh(sizes(2, 2, 3));
    let lent = |sizes: [u64; 3], less: [usize; 3]| {
        let shorter = |bytes: &[u8], less: usize| bytes[less..].to_vec();
        let [cells, logs, decisions] = less;
        number(&Night::lent(
            sizes,
            shorter(night.cells(), cells),
            shorter(night.logs(), logs),
            shorter(night.decisions(), decisions),
            *night.racks(),
        ))
    };
    assert_eq!(lent([2, 2, 3], [0, 0, 0]), 0);
    assert_eq!(lent([2, 2, 3], [1, 0, 0]), 1);
    assert_eq!(lent([2, 2, 3], [0, 2, 0]), 1);
    assert_eq!(lent([2, 2, 3], [0, 0, 6]), 1);
    for sizes in [
        [0, 2, 3],
        [2, 0, 3],
        [2, 2, 0],
        [9, 2, 3],
        [2, 5, 3],
        [2, 2, 65],
    ] {
        assert_eq!(lent(sizes, [0, 0, 0]), 1);
    }
    assert_eq!(lent([u64::MAX; 3], [0, 0, 0]), 1);
    assert_eq!(lent([1 << 32, 1 << 32, 1 << 32], [0, 0, 0]), 1);
}

#[test]
fn one_fresh_leaves_tables_of_another_length() {
    let (mut cells, mut logs, mut decisions) = ([7; 24], [7; 2], [7; 2]);
    let reply = fresh([1, 1, 1], &mut cells, &mut logs, &mut decisions);
    assert_eq!(reply, Err(Refusal::Size));
    assert_eq!((cells, logs, decisions), ([7; 24], [7; 2], [7; 2]));
    let racks = fresh([1, 1, 1], &mut cells, &mut logs, &mut decisions[..1]);
    assert_eq!(racks, Ok(*Night::fresh(sizes(1, 1, 1)).racks()));
    assert_eq!((cells, logs, decisions), ([0; 24], [0; 2], [255, 7]));
}

#[test]
fn two_comes_before_a_bad_record() {
    let night = Night::fresh(sizes(1, 1, 1));
    let mut racks: Racks = *night.racks();
    racks[0].round = 0;
    let unsound = Night::lent(
        [1, 1, 1],
        night.cells().to_vec(),
        night.logs().to_vec(),
        night.decisions().to_vec(),
        racks,
    )
    .expect("exact lengths");
    assert_eq!(reply(&unsound, &[0, 255, 255, 0]), 2);
    assert_eq!(reply(&unsound, &[9, 9]), 2);
}

#[test]
fn three_bad_records() {
    let night = Night::fresh(sizes(2, 2, 3));
    let bad: [&[u8]; 7] = [
        &[],
        &[0],
        &[0, 255, 255],
        &[0, 255, 255, 0, 0],
        &[0, 255, 255, 1],
        &[2, 255, 255, 0],
        &[255, 255, 255, 0],
    ];
    for record in bad {
        assert_eq!(reply(&night, record), 3, "{record:?}");
    }
}

#[test]
fn four_a_finished_rack_whatever_it_names() {
    let mut card = Card::new(2, 1, 1);
    card.round(0, 0, 0);
    for record in [[0, 255, 255, 0], [0, 0, 0, 0], [0, 9, 9, 0]] {
        assert_eq!(reply(card.night(), &record), 4);
    }
    assert_eq!(reply(card.night(), &[0, 255, 255, 1]), 3);
    assert_eq!(reply(card.night(), &[1, 255, 255, 0]), 0);
}

#[test]
fn five_lane_or_source() {
    let mut card = Card::new(2, 2, 3);
    for step in 0..14 {
        let right = if step == 1 { (1, 0) } else { (255, 255) };
        for wrong in [(0, 0), (0, 255), (255, 0), (254, 255), (255, 254)] {
            if step != 1 {
                assert_eq!(reply(card.night(), &[0, wrong.0, wrong.1, 0]), 5);
            }
        }
        for wrong in [(2, 0), (0, 2), (255, 255), (255, 0), (0, 255)] {
            if step == 1 {
                assert_eq!(reply(card.night(), &[0, wrong.0, wrong.1, 0]), 5);
            }
        }
        assert_eq!(card.answer(0, right.0, right.1), 0);
    }
}

#[test]
fn six_no_offer_comes_before_seven() {
    let mut card = Card::new(3, 1, 3);
    card.turns(0, 1);
    assert_eq!(reply(card.night(), &[0, 0, 1, 0]), 6);
    assert_eq!(card.answer(0, 0, 0), 0);
    card.turns(1, 1);
    assert_eq!(reply(card.night(), &[1, 0, 2, 0]), 6);
    assert_eq!(reply(card.night(), &[1, 0, 1, 0]), 7);
    assert_eq!(reply(card.night(), &[1, 0, 0, 0]), 0);
}

#[test]
fn seven_even_if_the_value_is_equal() {
    // Racks 1 and 2 both adopt 0#1 in round 1, so they offer the same in round 2.
    let mut card = Card::new(3, 2, 3);
    card.round(0, 0, 0);
    card.round(1, 1, 1);
    card.round(2, 1, 1);
    card.turns(1, 1);
    card.turns(2, 1);
    let offer = |source| card.night().cell(Section::Offers, 2, 0, source);
    assert_eq!(offer(1), Cell::new(WRITTEN, value(0, (0, 1), (0, 0))));
    assert_eq!(offer(1), offer(2));
    assert_eq!(card.answer(1, 0, 1), 0);
    assert_eq!(reply(card.night(), &[2, 0, 2, 0]), 7);
    assert_eq!(reply(card.night(), &[2, 0, 1, 0]), 0);
}

/// One rack at the last step of round 1 of 1, with a full log and a committed value after it.
fn full_log() -> Night {
    let value = value(1, (0, 2), (0, 1));
    let first = Cell::new(WRITTEN, value);
    let cells = [first, first, Cell::new(COMMITTED, value)].map(Cell::to_record);
    let mut rack = Rack {
        round: 1,
        step: 5,
        first_lane: 0,
        ..Rack::default()
    };
    rack.gathered_first[0] = first;
    rack.held[0] = value;
    let mut racks = [Rack::default(); 8];
    racks[0] = rack;
    Night::lent([1, 1, 1], cells.concat(), vec![0, 1], vec![0], racks).expect("exact lengths")
}

#[test]
fn eight_needs_a_hand_made_table() {
    let night = full_log();
    assert!(night.is_sound());
    assert_eq!(reply(&night, &[0, 0, 0, 0]), 5);
    assert_eq!(reply(&night, &[0, 255, 255, 0]), 8);
}

#[test]
fn eight_in_one_lane_leaves_the_other_lanes_too() {
    // Lane 0 could append 0#1; lane 1 is full, and its committed value comes after it.
    let (low, high) = (value(0, (0, 1), (0, 0)), value(1, (0, 2), (0, 1)));
    let (first_low, first_high) = (Cell::new(WRITTEN, low), Cell::new(WRITTEN, high));
    let second = [low, high].map(|value| Cell::new(COMMITTED, value));
    let cells = [
        first_low, first_high, first_low, first_high, second[0], second[1],
    ];
    let mut rack = Rack {
        round: 1,
        step: 9,
        first_lane: 0,
        ..Rack::default()
    };
    rack.held[..2].copy_from_slice(&[low, high]);
    rack.results[0] = second[0];
    rack.news[0] = low;
    rack.gathered_first[0] = first_high;
    let mut racks = [Rack::default(); 8];
    racks[0] = rack;
    let night = Night::lent(
        [1, 2, 1],
        cells.map(Cell::to_record).concat(),
        vec![0, 0, 0, 1],
        vec![0, 255],
        racks,
    )
    .expect("exact lengths");
    assert!(night.is_sound());
    assert_eq!(reply(&night, &[0, 255, 255, 0]), 8);
}

#[test]
fn the_largest_numbers_do_not_overflow() {
    // A full log of 64 own cues; the result is older, so the rack holds its own 65th.
    let sizes = [1, 1, 64];
    let logs: Vec<u8> = (1..=64).flat_map(|number| [0, number]).collect();
    let old = value(0, (0, 65), (0, 0));
    let mut cells = vec![0; 24 * 64];
    let record = Cell::new(WRITTEN, old).to_record();
    for (section, mark) in [WRITTEN, WRITTEN, COMMITTED].into_iter().enumerate() {
        let start = (section * 64 + 63) * 8;
        cells[start..start + 8].copy_from_slice(&record);
        cells[start] = mark;
    }
    let mut decisions = vec![255; 64];
    decisions[63] = 0;
    let mut racks = [Rack::default(); 8];
    racks[0] = Rack {
        round: 64,
        step: 5,
        ..Rack::default()
    };
    racks[0].gathered_first[0] = Cell::new(WRITTEN, old);
    racks[0].held[0] = value(64, (0, 65), (0, 64));
    let mut night = Night::lent(sizes, cells, logs, decisions, racks).expect("exact lengths");
    assert_eq!(night.turn(&[0, 255, 255, 0]), Ok(()));
    assert!(night.is_sound());
    assert_eq!(night.racks()[0].held[0], value(64, (0, 65), (0, 64)));
    assert_eq!(night.racks()[0].round, 65);
    assert_eq!(night.racks()[0].news[0], Value::NONE);
    assert_eq!(reply(&night, &[0, 255, 255, 0]), 4);
}
