//! The sheet, byte for byte.

use second::files::NightFiles;

use crate::driver::sheet_of;

fn example() -> NightFiles {
    NightFiles {
        size: vec![1, 1, 1, 0],
        cues: vec![0, 0, 17, 0],
        turns: [
            [0, 255, 255, 0],
            [0, 0, 0, 0],
            [0, 255, 255, 0],
            [0, 255, 255, 0],
            [0, 255, 255, 0],
            [0, 255, 255, 0],
        ]
        .concat(),
    }
}

#[test]
fn the_example_of_the_document() {
    let expected = "racks 1 lanes 1 rounds 1\n\
                    turns 6 taken 6 refused 0\n\
                    log 0 0 finished 1 length 1\n\
                    0 0 1 17\n";
    assert_eq!(sheet_of(&example()), expected);
}

#[test]
fn p6_a_seventh_turn_gets_4_and_a_short_piece_3() {
    let mut files = example();
    files.turns.extend([0, 255, 255, 0, 0, 255]);
    let expected = "racks 1 lanes 1 rounds 1\n\
                    refused 6 4\n\
                    refused 7 3\n\
                    turns 8 taken 6 refused 2\n\
                    log 0 0 finished 1 length 1\n\
                    0 0 1 17\n";
    assert_eq!(sheet_of(&files), expected);
}

#[test]
fn a_number_past_its_list_has_code_0() {
    let mut files = example();
    files.cues.clear();
    assert!(sheet_of(&files).ends_with("\n0 0 1 0\n"));
}

#[test]
fn codes_are_low_byte_first_and_numbered_in_order() {
    let mut files = example();
    files.size = vec![1, 1, 2, 0];
    files.cues = [[0, 0, 1, 2], [0, 0, 255, 255]].concat();
    files.turns = files.turns.repeat(2);
    assert!(sheet_of(&files).ends_with("length 2\n0 0 1 513\n1 0 2 65535\n"));
}

#[test]
fn bad_sizes_are_told_alone_and_before_cues() {
    let bad: [&[u8]; 10] = [
        &[],
        &[1, 1, 1],
        &[1, 1, 1, 0, 0],
        &[1, 1, 1, 1],
        &[0, 1, 1, 0],
        &[9, 1, 1, 0],
        &[1, 0, 1, 0],
        &[1, 5, 1, 0],
        &[1, 1, 0, 0],
        &[1, 1, 65, 0],
    ];
    for size in bad {
        let files = NightFiles {
            size: size.to_vec(),
            cues: vec![9],
            ..example()
        };
        assert_eq!(sheet_of(&files), "bad size\n", "{size:?}");
    }
}

#[test]
fn the_first_bad_cue_is_told_alone() {
    let good = [0, 0, 17, 0];
    let bad: [&[u8]; 6] = [
        &[0],
        &[0, 0, 17],
        &[1, 0, 17, 0],
        &[0, 1, 17, 0],
        &[0, 0, 0, 0],
        &[255, 255, 0, 0],
    ];
    for record in bad {
        let files = NightFiles {
            cues: [good.as_slice(), good.as_slice(), record].concat(),
            ..example()
        };
        assert_eq!(sheet_of(&files), "bad cues 2\n", "{record:?}");
    }
}

#[test]
fn a_65th_cue_is_bad_and_64_are_not() {
    let mut files = example();
    files.cues = [0, 0, 17, 0].repeat(64);
    assert_eq!(sheet_of(&files), sheet_of(&example()));
    files.cues.extend([0, 0, 17, 0, 7]);
    assert_eq!(sheet_of(&files), "bad cues 64\n");
}

#[test]
fn a_night_without_turns_has_empty_logs_for_each_rack_and_lane() {
    let files = NightFiles {
        size: vec![2, 2, 3, 0],
        ..NightFiles::default()
    };
    let expected = "racks 2 lanes 2 rounds 3\n\
                    turns 0 taken 0 refused 0\n\
                    log 0 0 finished 0 length 0\n\
                    log 0 1 finished 0 length 0\n\
                    log 1 0 finished 0 length 0\n\
                    log 1 1 finished 0 length 0\n";
    assert_eq!(sheet_of(&files), expected);
}
