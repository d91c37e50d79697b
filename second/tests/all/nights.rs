//! The nights to check: P1 to P12.

use second::cell::{Cell, Section, ADOPTED, COMMITTED};
use second::refusal::Refusal;
use second::sizes::Sizes;

use crate::driver::{sizes, value, Card};

/// 0#1 at place 0, and 0#2 after it.
fn first_cue() -> second::cell::Value {
    value(0, (0, 1), (0, 0))
}

fn second_cue() -> second::cell::Value {
    value(1, (0, 2), (0, 1))
}

#[test]
fn p1_to_p3_steps_of_a_round() {
    for ((racks, lanes), steps) in [((1, 1), 6), ((2, 2), 14), ((8, 4), 74)] {
        assert_eq!(sizes(racks, lanes, 1).steps_of_round(), steps);
        let mut card = Card::new(racks, lanes, 2);
        card.turns(0, 1);
        assert_eq!(card.answer(0, 0, 0), 0);
        card.turns(0, steps - 3);
        assert_eq!(card.rack(0).round, 1);
        card.turns(0, 1);
        assert_eq!((card.rack(0).round, card.rack(0).step), (2, 0));
    }
}

#[test]
fn p4_and_p5_sizes() {
    assert_eq!(Sizes::new(0, 1, 1), Err(Refusal::Size));
    assert!(Sizes::new(8, 1, 1).is_ok());
    assert_eq!(Sizes::new(9, 1, 1), Err(Refusal::Size));
    assert!(Sizes::new(1, 1, 64).is_ok());
    assert_eq!(Sizes::new(1, 1, 65), Err(Refusal::Size));
    assert_eq!(Refusal::Size.number(), 1);
}

#[test]
fn p7_a_first_turn_with_a_lane_gets_5() {
    let mut card = Card::new(1, 1, 1);
    assert_eq!(card.answer(0, 0, 255), 5);
    assert_eq!(card.night(), Card::new(1, 1, 1).night());
}

/// Rack 0 does round 1 alone, winning lane 0 from itself; then rack 1, winning lane 1.
fn after_round_1() -> Card {
    let mut card = Card::new(2, 2, 4);
    let committed = Cell::new(COMMITTED, first_cue());
    assert_eq!(card.round(0, 0, 0), [committed, committed]);
    for lane in 0..2 {
        assert_eq!(card.log(0, lane), [(0, 1)]);
        assert_eq!(card.rack(0).held[lane], second_cue());
        assert_eq!(card.night().cell(Section::Second, 1, lane, 0), committed);
    }
    let adopted = Cell::new(ADOPTED, first_cue());
    assert_eq!(card.round(1, 1, 1), [adopted, adopted]);
    for lane in 0..2 {
        assert_eq!(card.log(1, lane), []);
        assert_eq!(card.rack(1).held[lane], first_cue());
        let own = Cell::new(ADOPTED, value(0, (1, 1), (0, 0)));
        assert_eq!(card.night().cell(Section::Second, 1, lane, 1), own);
    }
    card
}

#[test]
fn p8_and_p9_commit_and_adopt() {
    let card = after_round_1();
    assert_eq!(card.night().decisions()[..4], [0, 1, 255, 255]);
    assert!(card.night().is_sound());
}

#[test]
fn p10_another_source_gets_7_and_a_run_cue_is_not_run_again() {
    let mut card = after_round_1();
    let committed = Cell::new(COMMITTED, first_cue());
    assert_eq!(card.round(1, 0, 1)[0], committed);
    assert_eq!(card.log(1, 0), [(0, 1)]);
    card.turns(0, 1);
    assert_eq!(card.answer(0, 0, 0), 7);
    assert_eq!(card.rack(0).step, 1);
    assert_eq!(card.answer(0, 0, 1), 0);
    card.turns(0, 6);
    assert_eq!(card.rack(0).results[0], committed);
    card.turns(0, 6);
    assert_eq!(card.log(0, 0), [(0, 1)]);
    assert_eq!(card.rack(0).held[0], second_cue());
}

/// Rack 0 does round 2 first, winning lane 0 from itself.
fn after_rack_0_in_round_2() -> Card {
    let mut card = after_round_1();
    let committed = Cell::new(COMMITTED, second_cue());
    assert_eq!(card.round(0, 0, 0), [committed, committed]);
    for lane in 0..2 {
        assert_eq!(card.log(0, lane), [(0, 1), (0, 2)]);
    }
    card
}

#[test]
fn p11_the_missed_cue_is_learned_from_news() {
    let mut card = after_rack_0_in_round_2();
    let adopted = Cell::new(ADOPTED, second_cue());
    assert_eq!(card.round(1, 1, 1), [adopted, adopted]);
    for lane in 0..2 {
        assert_eq!(card.log(1, lane), [(0, 1)]);
        assert_eq!(card.rack(1).held[lane], second_cue());
    }
}

#[test]
fn p12_two_cues_in_one_round() {
    let mut card = after_rack_0_in_round_2();
    let results = card.round(1, 0, 0);
    assert_eq!(results[0], Cell::new(COMMITTED, second_cue()));
    assert_eq!(card.log(1, 0), [(0, 1), (0, 2)]);
    assert_eq!(card.rack(1).held[0], value(2, (1, 1), (0, 2)));
    assert_eq!(results[1], Cell::new(ADOPTED, second_cue()));
    assert_eq!(card.log(1, 1), [(0, 1)]);
}

#[test]
fn a_rack_visits_the_lane_it_won_first() {
    let mut card = Card::new(1, 3, 1);
    card.turns(0, 1);
    assert_eq!(card.answer(0, 1, 0), 0);
    let mut visited = Vec::new();
    for _ in 0..3 {
        let before = card.rack(0).results;
        card.turns(0, 4);
        let finished = (0..3).find(|lane| card.rack(0).results[*lane] != before[*lane]);
        visited.push(finished);
    }
    // The last lane's result is settled and cleared in the step that gives it.
    assert_eq!(visited, [Some(1), Some(0), Some(0)]);
    assert_eq!(card.rack(0).round, 2);
}

#[test]
fn a_later_rack_commits_in_a_lane_it_won_from_the_same_source() {
    let mut card = Card::new(3, 1, 3);
    let committed = Cell::new(COMMITTED, value(0, (2, 1), (0, 0)));
    for rack in 0..3 {
        card.turns(rack, 1);
    }
    for rack in 0..3 {
        assert_eq!(card.answer(rack, 0, 2), 0);
    }
    for rack in 0..3 {
        card.turns(rack, 7);
    }
    for rack in 0..3 {
        assert_eq!(
            card.night().cell(Section::Second, 1, 0, rack.into()),
            committed
        );
        card.turns(rack, 1);
        assert_eq!(card.log(rack, 0), [(2, 1)]);
    }
    assert_eq!(card.rack(2).held[0], value(1, (2, 2), (2, 1)));
    assert_eq!(card.rack(0).held[0], value(1, (0, 1), (2, 1)));
}
