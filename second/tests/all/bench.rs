//! The benchmark: what it counts, the nights it makes, and its tables.

use std::fs;
use std::io;
use std::path::Path;
use std::process::Command;

use second::bench::measure::{instructions_in, median, peak_in, Peak, Program};
use second::bench::nights::{refused_night, whole_night, Counts, REFUSED};
use second::bench::tables::{beside, grouped, ratio, share, Table};
use second::bench::{bench, Growth, Pair, Plan, Programs};
use second::files::EmptyFile;
use second::refusal::number;
use second::scratch::Scratch;
use second::sizes::Sizes;
use second::sound::SoundNight;

use crate::driver::{sheet_of, sizes};

#[test]
fn the_median_is_in_the_middle() {
    assert_eq!(median(vec![]), None);
    assert_eq!(median(vec![7]), Some(7));
    assert_eq!(median(vec![9, 1, 5]), Some(5));
    assert_eq!(median(vec![100, 4, 1, 6]), Some(5));
    assert_eq!(median(vec![3, 3, 4, 4]), Some(3));
}

#[test]
fn instructions_are_on_the_line_collected() {
    let log = "Collected : 5\n\
               ==2184== Callgrind, a call-graph generating cache profiler\n\
               ==2184== Events    : Ir\n\
               ==2184== Collected : 17857011\n\
               ==2184== \n\
               ==2184== I   refs:      17,857,011\n";
    assert_eq!(instructions_in(log), Some(17_857_011));
    assert_eq!(instructions_in("==1== Events    : Ir\n"), None);
    assert_eq!(instructions_in("==1== Collected : many\n"), None);
}

const SNAPSHOTS: &str = "\
desc: --stacks=yes
cmd: sheet
time_unit: i
#-----------
snapshot=0
#-----------
time=0
mem_heap_B=1
mem_heap_extra_B=2
mem_stacks_B=3
heap_tree=empty
#-----------
snapshot=1
#-----------
time=145340
mem_heap_B=40
mem_heap_extra_B=50
mem_stacks_B=143912
heap_tree=peak
n0: 0 (heap allocation functions) malloc/new/new[], --alloc-fns, etc.
#-----------
snapshot=2
#-----------
time=547093
mem_heap_B=6
mem_heap_extra_B=7
mem_stacks_B=135608
heap_tree=detailed
";

#[test]
fn the_peak_is_the_snapshot_marked_so() {
    let peak = Peak {
        stack: 143_912,
        heap: 40,
    };
    assert_eq!(peak_in(SNAPSHOTS), Some(peak));
    assert_eq!(peak_in(&SNAPSHOTS.replace("=peak", "=empty")), None);
    assert_eq!(
        peak_in(&SNAPSHOTS.replace("mem_stacks_B=1", "other=1")),
        None
    );
}

#[test]
fn numbers_stand_in_groups_of_three() {
    let texts = [
        (0, "0"),
        (999, "999"),
        (1_000, "1,000"),
        (37_888, "37,888"),
        (262_144, "262,144"),
        (2_000_000, "2,000,000"),
        (u64::MAX, "18,446,744,073,709,551,615"),
    ];
    for (number, text) in texts {
        assert_eq!(grouped(number), text);
    }
}

#[test]
fn ratios_and_shares_are_rounded() {
    assert_eq!(ratio(3, 2), "1.50");
    assert_eq!(ratio(2, 3), "0.67");
    assert_eq!(ratio(5, 5), "1.00");
    assert_eq!((share(10, 4), share(9, 4), share(0, 4)), (3, 2, 0));
    assert_eq!(share(10, 0), 0);
}

#[test]
fn a_table_is_aligned() {
    let mut table = Table::new(&["night", "turns", "sheet", "second", "ratio", "bar"]);
    let measured = Pair {
        proved: 1_200,
        second: 1_000,
    };
    for (name, turns) in [("one", 6), ("three racks", 37_888)] {
        let night = [name.to_string(), grouped(turns)];
        table.row(night.into_iter().chain(beside(measured)).collect());
    }
    let mut out = Vec::new();
    table
        .print("Instructions", &mut out)
        .expect("bytes can be written");
    let expected = "\nInstructions\n\
                    \x20 night         turns  sheet  second  ratio   bar\n\
                    \x20 one               6  1,200   1,000   1.20  1.50\n\
                    \x20 three racks  37,888  1,200   1,000   1.20  1.50\n";
    assert_eq!(String::from_utf8_lossy(&out), expected);
}

#[test]
fn the_turns_line_is_found_in_a_sheet() {
    let sheet = b"racks 1 lanes 1 rounds 1\nrefused 6 4\nturns 8 taken 6 refused 2\nlog 0 0\n";
    let counts = Counts {
        read: 8,
        taken: 6,
        refused: 2,
    };
    assert_eq!(Counts::on(sheet), Some(counts));
    assert_eq!(counts.to_string(), "turns 8 taken 6 refused 2");
    assert_eq!(Counts::on(b"bad size\n"), None);
    assert_eq!(Counts::on(b"turns 8 taken six refused 2\n"), None);
}

#[test]
fn whole_nights_are_taken_to_the_end() {
    let grown = Plan::WHOLE.growths.iter().flat_map(|growth| growth.sizes);
    for [racks, lanes, rounds] in grown.copied().chain([[1, 1, 1], [3, 2, 5], [2, 4, 3]]) {
        let sizes = sizes(racks, lanes, rounds);
        let night = whole_night(sizes);
        let turns = racks * rounds * (2 + lanes * (2 * racks + 2));
        let counts = Counts {
            read: turns,
            taken: turns,
            refused: 0,
        };
        assert_eq!(night.counts, counts);
        let sheet = sheet_of(&night.files);
        assert_eq!(Counts::on(sheet.as_bytes()), Some(counts));
        let finished = format!(" finished {rounds} length ");
        assert_eq!(sheet.matches(&finished).count() as u64, racks * lanes);
    }
    assert_eq!(whole_night(Sizes::LARGEST).counts.read, 37_888);
}

#[test]
fn every_refused_turn_is_refused_with_3_or_5() {
    let mut night = SoundNight::fresh(Sizes::LARGEST);
    let replies = REFUSED.map(|record| number(&night.turn(&record)));
    assert_eq!(replies, [3, 3, 5, 5, 5]);
    let night = refused_night(1_234);
    let counts = Counts {
        read: 1_234,
        taken: 0,
        refused: 1_234,
    };
    assert_eq!(night.counts, counts);
    let sheet = sheet_of(&night.files);
    assert_eq!(Counts::on(sheet.as_bytes()), Some(counts));
    assert!(sheet.contains("\nrefused 0 3\n") && sheet.contains("\nrefused 1233 5\n"));
}

#[test]
fn a_scratch_folder_is_removed_and_no_two_are_one() {
    let (one, other) = (Scratch::new(), Scratch::new());
    let (one, other) = (one.expect("a folder"), other.expect("a folder"));
    assert_ne!(one.folder(), other.folder());
    let folder = one.folder().to_path_buf();
    assert!(folder.is_dir());
    fs::write(folder.join("file"), b"bytes").expect("a file");
    drop(one);
    assert!(!folder.exists() && other.folder().is_dir());
}

const SMALL: Plan = Plan {
    runs: 2,
    refused_turns: 50,
    growths: &[Growth {
        name: "R",
        sizes: &[[1, 1, 1], [1, 1, 2]],
    }],
    seed: 1,
    cases: 3,
    valgrind: "valgrind",
};

/// A program for the public turn that takes some steps where it would call.
const TURNS: &str = "case $1 in\n\
                     cases) echo $3 $4 >$2 ;;\n\
                     card) for call in 1 2 3 4; do :; done ;;\n\
                     second) for call in 1 2 3 4 5 6 7 8; do :; done ;;\n\
                     esac\n";

const SECOND: &str = env!("CARGO_BIN_EXE_second");

fn command(name: &str) -> Program {
    let program = Program::new(Path::new(SECOND));
    program.expect("the program").with(name)
}

/// The benchmark of a program and the command `sheet`, on a night that is made first.
fn bench_small(proved: Program, plan: &Plan) -> (String, io::Result<()>) {
    let scratch = Scratch::new().expect("a folder");
    let night = scratch.folder().join("small");
    let files = whole_night(sizes(2, 1, 2)).files;
    files.write(&night, EmptyFile::Written).expect("a night");
    let script = scratch.folder().join("turns");
    fs::write(&script, TURNS).expect("a script");
    let shell = Program::new(Path::new("/bin/sh")).expect("a shell");
    let programs = Programs {
        sheets: Pair {
            proved,
            second: command("sheet"),
        },
        turns: Some(shell.with(&script)),
    };
    let mut out = Vec::new();
    let outcome = bench(&programs, &night, plan, &mut out);
    (String::from_utf8(out).expect("text"), outcome)
}

#[test]
fn both_sides_are_measured() {
    let (out, outcome) = bench_small(command("sheet"), &SMALL);
    assert!(out.contains("\n  small             32 "), "{out}");
    assert!(out.contains("\n  refused turns     50 "), "{out}");
    let is_debug = out.contains("second is a debug build");
    assert_eq!(is_debug, cfg!(debug_assertions));
    if let Err(error) = outcome {
        // Where valgrind is not there, the wall clock is.
        assert!(error.to_string().starts_with("valgrind: "), "{error}");
        return;
    }
    for heading in [
        "\nWall clock: ",
        "\nInstructions: ",
        "\nGrowth with R: ",
        "\nPublic turn: ",
        "\nMemory: ",
    ] {
        assert_eq!(out.matches(heading).count(), 1, "{heading}{out}");
    }
    // The same program on both sides needs the same.
    let (_, counted) = out.split_once("\nInstructions: ").expect("a table");
    let ratios = counted
        .lines()
        .filter(|line| line.ends_with("  1.00  1.50"));
    assert_eq!(ratios.count(), 2, "{out}");
    let grown = counted.lines().filter(|line| line.ends_with("  1.00"));
    assert_eq!(grown.count(), 2, "{out}");
    let calls = counted
        .lines()
        .find(|line| line.starts_with("  8  4  64      3 "));
    assert!(calls.is_some_and(|line| line.contains("  0.")), "{out}");
}

#[test]
fn the_wall_clock_needs_no_valgrind() {
    let plan = Plan {
        valgrind: "no-such-valgrind",
        ..SMALL
    };
    let (out, outcome) = bench_small(command("sheet"), &plan);
    let error = outcome.expect_err("no count without valgrind").to_string();
    assert!(error.starts_with("no-such-valgrind: "), "{error}");
    assert!(out.contains("\nWall clock: "), "{out}");
    assert!(!out.contains("\nInstructions: "), "{out}");
}

#[test]
fn other_bytes_are_not_measured() {
    let (out, outcome) = bench_small(command("show").with("."), &SMALL);
    let error = outcome.expect_err("other bytes").to_string();
    let difference = "sheet line 1: expected \"racks 2 lanes 1 rounds 2\\n\", \
                      got \"size 2 1 2\\n\"";
    assert!(error.ends_with(difference), "{error}");
    assert_eq!(out, "");
}

#[test]
fn an_error_leaves_no_folder_behind() {
    let scratch = Scratch::new().expect("a folder");
    let night = scratch.folder().join("night");
    let files = whole_night(sizes(1, 1, 1)).files;
    files.write(&night, EmptyFile::Written).expect("a night");
    let temporary = scratch.folder().join("temporary");
    fs::create_dir(&temporary).expect("a folder");
    // Without a command this program ends with a status that is not 0.
    let output = Command::new(SECOND)
        .args(["bench", SECOND])
        .arg(&night)
        .env("TMPDIR", &temporary)
        .output()
        .expect("the program starts");
    assert_eq!(output.status.code(), Some(1));
    let error = String::from_utf8(output.stderr).expect("text");
    assert_eq!(error.lines().count(), 1, "{error}");
    assert!(error.ends_with(": exit status: 2\n"), "{error}");
    assert_eq!(fs::read_dir(&temporary).expect("a folder").count(), 0);
}
