//! From text to files and back.

use std::io::BufReader;

use second::files::NightFiles;
use second::maker::make;
use second::random::Random;
use second::text::{pack, show, MOST_BYTES};

fn text_of(files: &NightFiles) -> String {
    let mut out = Vec::new();
    show(
        BufReader::new(files.size.as_slice()),
        BufReader::new(files.cues.as_slice()),
        BufReader::new(files.turns.as_slice()),
        &mut out,
    )
    .expect("bytes can be read and written");
    String::from_utf8(out).expect("shown as text")
}

fn packed(text: &str) -> NightFiles {
    pack(text.as_bytes()).expect("a text of the form")
}

fn complaint(text: &str) -> String {
    pack(text.as_bytes())
        .expect_err("no text of the form")
        .to_string()
}

#[test]
fn each_line_gives_its_bytes() {
    let text = "# a night\n\n  size 2 2 4 # racks lanes rounds\ncue 0 1 513\nturn 1\n\
                answer 0 1 0\r\nraw turns 0 255 255 1\nraw cues 9\nraw size 7\n";
    let files = NightFiles {
        size: vec![2, 2, 4, 0, 7],
        cues: vec![0, 1, 1, 2, 9],
        turns: vec![1, 255, 255, 0, 0, 1, 0, 0, 0, 255, 255, 1],
    };
    assert_eq!(packed(text), files);
    assert_eq!(packed(""), NightFiles::default());
}

#[test]
fn repeats_nest_and_lines_have_times() {
    let text = "repeat 2\nturn 0 times 2\nrepeat 3\nturn 1\nend\ncue 0 0 1\nend\n\
                repeat 0\nturn 7\nend\nturn 2 times 0\n";
    let racks: Vec<u8> = packed(text).turns.chunks(4).map(|turn| turn[0]).collect();
    assert_eq!(racks, [0, 0, 1, 1, 1, 0, 0, 1, 1, 1]);
    assert_eq!(packed(text).cues, [0, 0, 1, 0, 0, 0, 1, 0]);
    assert_eq!(packed("raw turns 5 6 times 2").turns, [5, 6, 5, 6]);
}

#[test]
fn bad_lines_are_named() {
    let bad = [
        ("turn 0\nturn 256", "2: not a number from 0 to 255: 256"),
        ("cue 0 0 65536", "1: not a number from 0 to 65535: 65536"),
        ("turn +1", "1: not a number: +1"),
        ("turn -1", "1: not a number: -1"),
        ("turn", "1: no line of a night: turn"),
        ("turn 0 0", "1: no line of a night: turn 0 0"),
        ("raw turns", "1: raw without bytes"),
        ("raw noise 1", "1: no line of a night: raw noise 1"),
        ("size 1 1 1\nsize 1 1 1", "2: a second size line"),
        (
            "repeat 2\nsize 1 1 1\nend",
            "2: a size line inside a repeat",
        ),
        ("size 1 1 1 times 2", "1: no line of a night: size 1 1 1"),
        ("end", "1: end without repeat"),
        ("\nrepeat 2\nturn 0\n", "2: repeat without end"),
        ("turn 0 times x", "1: not a number: x"),
        ("times 2", "1: no line of a night: "),
    ];
    for (text, what) in bad {
        assert_eq!(complaint(text), what);
    }
    let no_text = pack(b"turn 0\n\xff\n").expect_err("no text");
    assert_eq!(no_text.to_string(), "2: not a line of text");
}

#[test]
fn absurd_repeats_are_refused() {
    let too_long = format!("turns.rec would be longer than {MOST_BYTES} bytes");
    let absurd = [
        ("turn 0 times 16777217", 1),
        ("turn 0 times 18446744073709551615", 1),
        ("repeat 9999999999\nturn 0\nend", 3),
        ("repeat 65536\nrepeat 65536\nturn 0\nend\nend", 5),
    ];
    for (text, line) in absurd {
        assert_eq!(complaint(text), format!("{line}: {too_long}"));
    }
    assert_eq!(packed("repeat 18446744073709551615\nend").turns, []);
    assert_eq!(packed("turn 0 times 16777216").turns.len(), MOST_BYTES);
}

#[test]
fn files_are_shown_in_the_form() {
    let files = NightFiles {
        size: vec![2, 2, 4, 0],
        cues: vec![0, 1, 1, 2, 3],
        turns: vec![0, 255, 255, 0, 0, 255, 255, 0, 0, 1, 0, 0, 0, 1, 0, 9, 8],
    };
    let text = "size 2 2 4\ncue 0 1 513\nraw cues 3\nturn 0 times 2\nanswer 0 1 0\n\
                raw turns 0 1 0 9\nraw turns 8\n";
    assert_eq!(text_of(&files), text);
    assert_eq!(text_of(&NightFiles::default()), "");
}

#[test]
fn what_is_shown_packs_to_the_same_bytes() {
    for seed in 0..300 {
        let files = make(seed).files;
        assert_eq!(packed(&text_of(&files)), files, "seed {seed}");
    }
    let mut random = Random::new(5);
    for _ in 0..300 {
        let mut noise = |most| (0..random.below(most)).map(|_| random.byte() % 4).collect();
        let files = NightFiles {
            size: noise(7),
            cues: noise(40),
            turns: noise(80),
        };
        assert_eq!(packed(&text_of(&files)), files);
    }
}
