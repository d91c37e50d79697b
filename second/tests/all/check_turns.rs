//! Single calls as text.

use std::io::BufReader;

use second::check_turns::{answer, check_turns, hex};
use second::night::Night;
use second::rack::racks_to_bytes;

use crate::driver::{sizes, Card};

fn tables(night: &Night) -> String {
    let racks = racks_to_bytes(night.racks());
    let tables = [night.cells(), night.logs(), night.decisions(), &racks];
    tables.map(hex).join(" ")
}

fn answered(case: &str) -> String {
    answer(case).expect("a case")
}

#[test]
fn a_turn_prints_the_state_afterwards() {
    let mut card = Card::new(2, 2, 4);
    let before = tables(card.night());
    card.turns(0, 1);
    let after = tables(card.night());
    assert_eq!(
        answered(&format!("turn 2 2 4 {before} 00ffff00")),
        format!("0 {after}")
    );
    assert_eq!(
        answered(&format!("turn 2 2 4 {before} 00ffff01")),
        format!("3 {before}")
    );
    assert_eq!(
        answered(&format!("turn 2 2 4 {before} -")),
        format!("3 {before}")
    );
    assert_eq!(
        answered(&format!("turn 2 2 4 {after} 00ffff00")),
        format!("5 {after}")
    );
    assert_eq!(
        answered(&format!("turn 2 2 3 {before} 00ffff00")),
        format!("1 {before}")
    );
    let most = u64::MAX;
    assert_eq!(
        answered(&format!("turn {most} 0 4 {before} 00")),
        format!("1 {before}")
    );
}

#[test]
fn soundness_prints_its_number() {
    let night = Night::fresh(sizes(1, 1, 1));
    let fresh = tables(&night);
    assert_eq!(answered(&format!("sound 1 1 1 {fresh}")), "0");
    assert_eq!(answered(&format!("sound 1 1 2 {fresh}")), "1");
    assert_eq!(answered(&format!("sound 0 1 1 {fresh}")), "1");
    let zeros = format!("{} 0000 ff {}", "00".repeat(24), "00".repeat(1304));
    assert_eq!(answered(&format!("sound 1 1 1 {zeros}")), "2");
}

#[test]
fn fresh_fills_tables_of_the_exact_length() {
    let any = format!("{} 1111 11", "22".repeat(24));
    let night = Night::fresh(sizes(1, 1, 1));
    assert_eq!(
        answered(&format!("fresh 1 1 1 {any}")),
        format!("0 {}", tables(&night))
    );
    let zeros = "00".repeat(1304);
    assert_eq!(
        answered(&format!("fresh 1 2 1 {any}")),
        format!("1 {any} {zeros}")
    );
    assert_eq!(answered("fresh 1 1 1 - - -"), format!("1 - - - {zeros}"));
}

#[test]
fn a_fresh_rack_has_these_163_bytes() {
    let night = Night::fresh(sizes(2, 3, 1));
    let racks = racks_to_bytes(night.racks());
    let rack = &racks[163..326];
    assert_eq!(rack[..3], [1, 0, 255]);
    assert_eq!(rack[3..99], [0; 96]);
    assert_eq!(rack[99..114], [0, 1, 1, 0, 0].repeat(3));
    assert_eq!(rack[114..], [0; 49]);
    assert_eq!(racks[326..], [0; 978]);
}

#[test]
fn the_other_calls() {
    let logs = "0001010100000000";
    assert_eq!(answered(&format!("entry 2 1 2 {logs} 0 0 1")), "0 1 1");
    assert_eq!(answered(&format!("entry 2 1 2 {logs} 1 0 0")), "9 0 0");
    assert_eq!(answered(&format!("entry 2 1 1 {logs} 0 0 0")), "1 0 0");
    assert_eq!(answered("entry 2 1 1 00010900 0 0 0"), "2 0 0");
    assert_eq!(answered("agree 0001 00010002"), "1");
    assert_eq!(answered("agree 0001 0002"), "0");
    assert_eq!(answered("agree - -"), "1");
    assert_eq!(answered("longer 0001 00010002"), "1 4");
    assert_eq!(answered("longer 0001 0001"), "0 2");
    assert_eq!(answered("longer - -"), "0 0");
    assert_eq!(answered("longer 0001 00"), "2 0");
}

#[test]
fn a_malformed_line_is_named() {
    let bad = [
        "",
        "agree 00",
        "agree 00  00",
        "agree 0 00",
        "agree 0G 00",
        "agree AA 00",
        "agree 00 00 ",
        "longer",
        "sound 1 1 1 - - - -",
        "entry 1 1 -1 - 0 0 0",
        "entry 1 1 +1 - 0 0 0",
        "entry 1 1 18446744073709551616 - 0 0 0",
        "agree é0 00",
    ];
    for line in bad {
        let cases = format!("agree - -\n{line}\nagree - -\n");
        let mut out = Vec::new();
        let error =
            check_turns(BufReader::new(cases.as_bytes()), &mut out).expect_err("a malformed line");
        assert!(error.to_string().starts_with("line 2: "), "{error}");
        assert_eq!(out, b"1\n");
    }
}
