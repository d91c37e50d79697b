//! The commands of the second program: bad input ends it with one line and exit status 1, wrong
//! usage with the usage and exit status 2; a comparison that failed has told so, with status 1.

use std::env;
use std::ffi::{OsStr, OsString};
use std::io::{self, BufReader, BufWriter, ErrorKind, Read, Write};
use std::path::Path;
use std::process::ExitCode;

use second::bench::measure::Program;
use second::bench::{bench, Pair, Plan, Programs};
use second::check_turns::check_turns;
use second::compare::compare;
use second::files::{open_named, read, EmptyFile, Named, PIECE};
use second::hold::hold;
use second::maker::{make_night, make_nights};
use second::sheet::sheet_of_folder;
use second::text::{pack, show_folder};

/// With a whole cycle of made nights or more, 512, what never came up in them is a failure.
const USAGE: &str = "usage: second sheet [FOLDER] | check-turns [FILE] | make SEED FOLDER [COUNT] \
                     | pack TEXT FOLDER | show FOLDER | compare NIGHTS \
                     | hold PROGRAM NIGHTS SEED COUNT (from COUNT 512 on, all must come up) \
                     | bench SHEET NIGHT [TURNS]";

fn main() -> ExitCode {
    let arguments: Vec<OsString> = env::args_os().skip(1).collect();
    let mut out = BufWriter::with_capacity(
        PIECE,
        Named::new("standard output".to_string(), io::stdout().lock()),
    );
    let Some(outcome) = run(&arguments, &mut out) else {
        return end(USAGE, 2);
    };
    match outcome.and_then(|passed| out.flush().map(|()| passed)) {
        Ok(true) => ExitCode::SUCCESS,
        Ok(false) => ExitCode::FAILURE,
        Err(error) => end(&error.to_string(), 1),
    }
}

/// Ends with one line on standard error; there is nowhere to tell when that fails too.
fn end(line: &str, status: u8) -> ExitCode {
    let _ = writeln!(io::stderr(), "{line}");
    ExitCode::from(status)
}

/// Runs a command, if the arguments name one, and tells whether all went well.
fn run(arguments: &[OsString], out: &mut impl Write) -> Option<io::Result<bool>> {
    let (command, arguments) = arguments.split_first()?;
    let arguments: Vec<&OsStr> = arguments.iter().map(OsString::as_os_str).collect();
    let done = match (command.to_str()?, arguments.as_slice()) {
        ("sheet", []) => sheet_of_folder(Path::new("."), out),
        ("sheet", [folder]) => sheet_of_folder(Path::new(folder), out),
        ("check-turns", []) => check_turns(BufReader::with_capacity(PIECE, standard_input()), out),
        ("check-turns", [file]) => check_turns_in(Path::new(file), out),
        ("make", [seed, folder]) => make_night(number(seed)?, Path::new(folder), out),
        ("make", [seed, folder, count]) => {
            make_nights(number(seed)?, Path::new(folder), number(count)?, out)
        }
        ("pack", [text, folder]) => pack_file(Path::new(text), Path::new(folder)),
        ("show", [folder]) => show_folder(Path::new(folder), out),
        ("bench", [sheet, night]) => bench_programs(sheet, night, None, out),
        ("bench", [sheet, night, turns]) => bench_programs(sheet, night, Some(turns), out),
        ("compare", [nights]) => return Some(compare(Path::new(nights), out)),
        ("hold", [program, nights, seed, count]) => {
            let (seed, count) = (number(seed)?, number(count)?);
            return Some(hold(
                Path::new(program),
                Path::new(nights),
                seed,
                count,
                out,
            ));
        }
        _ => return None,
    };
    Some(done.map(|()| true))
}

fn number(argument: &OsStr) -> Option<u64> {
    argument.to_str()?.parse().ok()
}

fn standard_input() -> Named<impl Read> {
    Named::new("standard input".to_string(), io::stdin().lock())
}

fn check_turns_in(path: &Path, out: &mut impl Write) -> io::Result<()> {
    check_turns(BufReader::with_capacity(PIECE, open_named(path)?), out)
}

fn pack_file(text: &Path, folder: &Path) -> io::Result<()> {
    let files = pack(&read(text)?).map_err(|bad| {
        io::Error::new(ErrorKind::InvalidData, format!("{}:{bad}", text.display()))
    })?;
    files.write(folder, EmptyFile::Written)
}

/// Measures the proved program beside this one, which is run as any other program is.
fn bench_programs(
    sheet: &OsStr,
    night: &OsStr,
    turns: Option<&OsStr>,
    out: &mut impl Write,
) -> io::Result<()> {
    let program = |path: &OsStr| Program::new(Path::new(path));
    let programs = Programs {
        sheets: Pair {
            proved: program(sheet)?,
            second: Program::new(&env::current_exe()?)?.with("sheet"),
        },
        turns: turns.map(program).transpose()?,
    };
    bench(&programs, Path::new(night), &Plan::WHOLE, out)
}
