//! `./wake`, linked into a folder of its own, with a program in the place of `rt`: what it prints, tells and ends with.

use std::env;
use std::fs;
use std::os::unix::fs::symlink;
use std::path::PathBuf;
use std::process::{Command, Output};

use crate::scratch::Scratch;

const CRATES: &str =
    "# leaves\nlaws:\nmodel: laws # types\ntext: laws\nsheet: io text model\nother: model\n";

/// Stands in for `rt`: proves three of the four crates below `sheet`, `text` having been proved before. It takes longer for each than the script
/// takes to look at all, so that they are told in their order on a busy machine too.
const RT: &str = "#!/bin/sh
echo \"rt $*\"
sleep 0.1
for crate in laws model sheet; do mkdir -p ../$crate/out; echo proof >../$crate/out/proof; sleep 0.3; done
cp ../../sheet out/sheet
sleep 0.5
";

/// Stands in for `sheet`: the bytes of the size file of the folder that it is run in.
const SHEET: &str = "#!/bin/sh\ncat size.rec\n";

const USAGE: &str = "usage: ./wake FOLDER (a night's folder, as nights/three-racks)\n";

/// A folder with the script, two nights, its crates, and what stands in for `rt` and `sheet`.
fn card(name: &str, rt: &str, sheet: &str) -> Scratch {
    let scratch = Scratch::new(name);
    let script = concat!(env!("CARGO_MANIFEST_DIR"), "/../wake");
    symlink(script, scratch.0.join("wake")).expect("a link");
    scratch.write("crates.txt", CRATES.as_bytes());
    scratch.write("nights/one/README.md", b"A night.\nMore of it.\n");
    scratch.write("nights/one/size.rec", b"one \xff\x00");
    scratch.write("nights/two/size.rec", b"two");
    scratch.write("crates/text/out/proof", b"");
    scratch.write("crates/sheet/src/main.rt", b"");
    scratch.write_program("bin/rt", rt);
    scratch.write_program("sheet", sheet);
    scratch
}

/// The script with these arguments, run in the folder of nights.
fn wake(scratch: &Scratch, arguments: &[&str]) -> Command {
    let mut command = Command::new(scratch.0.join("wake"));
    let path = env::var("PATH").expect("a PATH");
    command
        .args(arguments)
        .current_dir(scratch.0.join("nights"))
        .env(
            "PATH",
            format!("{}:{path}", scratch.0.join("bin").display()),
        );
    command
}

/// What it prints, what it tells, and its exit status.
fn end(command: &mut Command) -> (Vec<u8>, String, Option<i32>) {
    let Output {
        status,
        stdout,
        stderr,
    } = command.output().expect("the script starts");
    let told = String::from_utf8(stderr).expect("text");
    (stdout, told, status.code())
}

#[test]
fn without_a_folder_it_lists_the_nights() {
    let scratch = card("wake-list", RT, SHEET);
    let (out, told, status) = end(&mut wake(&scratch, &[]));
    let list = format!("nights/one: A night.\nnights/two: \n{USAGE}");
    assert_eq!(
        (String::from_utf8(out), told.as_str(), status),
        (Ok(list), "", Some(0))
    );
    assert!(!scratch.0.join("target/bin").exists());
}

#[test]
fn wrong_usage_is_one_line_and_status_2() {
    let scratch = card("wake-usage", RT, SHEET);
    let none = end(&mut wake(&scratch, &["none"]));
    let told = format!("none is not a folder; {USAGE}");
    assert_eq!(none, (Vec::new(), told, Some(2)));
    let two = end(&mut wake(&scratch, &["one", "two"]));
    assert_eq!(two, (Vec::new(), USAGE.to_string(), Some(2)));
    assert!(!scratch.0.join("target/bin").exists());
}

#[test]
fn it_proves_builds_and_prints_the_sheet() {
    let scratch = card("wake-sheet", RT, SHEET);
    let first = end(&mut wake(&scratch, &["one"]));
    let proving = "proving 1 of 4: laws\nproving 3 of 4: model\nproving 4 of 4: sheet\n";
    let told = format!("proving and building the card first: some minutes\n{proving}");
    assert_eq!(first, (b"one \xff\x00".to_vec(), told, Some(0)));
    let log = fs::read_to_string(scratch.0.join("target/wake.log"));
    assert_eq!(log.expect("a log"), "rt run sheet\n");
    // A folder of the same name elsewhere is not the one that is meant.
    scratch.write("elsewhere/two/size.rec", b"elsewhere");
    let mut again = wake(&scratch, &["two"]);
    again.env("CDPATH", scratch.0.join("elsewhere"));
    let expected = (b"two".to_vec(), proving.to_string(), Some(0));
    assert_eq!(end(&mut again), expected);
}

#[test]
fn a_card_that_is_not_proved_is_told() {
    let scratch = card(
        "wake-unproved",
        "#!/bin/sh\necho no proof >&2\nexit 7\n",
        SHEET,
    );
    scratch.write_program("target/bin/sheet", SHEET);
    let (out, told, status) = end(&mut wake(&scratch, &["one"]));
    assert_eq!((out, status), (Vec::new(), Some(1)));
    let line = "the program could not be proved and built: see target/wake.log\n";
    assert_eq!(told, line);
    let log = fs::read_to_string(scratch.0.join("target/wake.log"));
    assert_eq!(log.expect("a log"), "no proof\n");
}

#[test]
fn without_the_toolchain_it_says_so() {
    let scratch = card("wake-no-rt", RT, SHEET);
    let tools = scratch.0.join("tools");
    fs::create_dir(&tools).expect("a folder");
    for tool in ["bash", "dirname"] {
        symlink(on_path(tool), tools.join(tool)).expect("a link");
    }
    let (out, told, status) = end(wake(&scratch, &["one"]).env("PATH", &tools));
    assert_eq!((out, status), (Vec::new(), Some(1)));
    let line = "./wake needs the Rattle toolchain: there is no rt on PATH\n";
    assert_eq!(told, line);
}

fn on_path(tool: &str) -> PathBuf {
    let path = env::var_os("PATH").expect("a PATH");
    let mut places = env::split_paths(&path).map(|folder| folder.join(tool));
    places.find(|place| place.is_file()).expect("the tool")
}

#[test]
fn a_sheet_that_fails_is_told_with_status_1() {
    let failing = [
        ("cat size.rec; echo cannot read >&2", "cannot read\n"),
        ("cat size.rec; exit 3", "the program ended with status 3\n"),
        (
            "cat size.rec; kill -SEGV $$",
            "the program ended with status 139\n",
        ),
        (
            "cat size.rec; echo bad >&2; exit 4",
            "bad\nthe program ended with status 4\n",
        ),
    ];
    for (index, (sheet, expected)) in failing.into_iter().enumerate() {
        let sheet = format!("#!/bin/sh\n{sheet}\n");
        let scratch = card(&format!("wake-failing-{index}"), RT, &sheet);
        let (out, told, status) = end(&mut wake(&scratch, &["two"]));
        assert_eq!((out, status), (b"two".to_vec(), Some(1)), "{sheet}");
        let told = told.split("sheet\n").nth(1);
        assert_eq!(told, Some(expected), "{sheet}");
    }
}
