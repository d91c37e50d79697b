//! Running and counting: the clock, the instructions and the memory of a program's runs.

use std::ffi::{OsStr, OsString};
use std::fs;
use std::io;
use std::path::{Path, PathBuf};
use std::process::{Command, ExitStatus, Stdio};
use std::time::Instant;

use crate::files::with_path;

/// A program and its arguments.
#[derive(Clone, Debug)]
pub struct Program {
    path: PathBuf,
    arguments: Vec<OsString>,
}

impl Program {
    /// The whole path is kept, as each run is in a folder of its own.
    pub fn new(path: &Path) -> io::Result<Program> {
        let path = path
            .canonicalize()
            .map_err(|error| with_path(path, error))?;
        Ok(Program {
            path,
            arguments: Vec::new(),
        })
    }

    /// The same program with one more argument.
    pub fn with(mut self, argument: impl Into<OsString>) -> Program {
        self.arguments.push(argument.into());
        self
    }

    /// What the program prints in a folder.
    pub fn output(&self, folder: &Path) -> io::Result<Vec<u8>> {
        let mut command = Command::new(&self.path);
        command.args(&self.arguments);
        let output = command
            .current_dir(folder)
            .stdin(Stdio::null())
            .stderr(Stdio::null())
            .output()
            .map_err(|error| with_path(&self.path, error))?;
        successful(&self.path, output.status)?;
        Ok(output.stdout)
    }

    /// The wall clock of one run in a folder, from its start to its end, in microseconds.
    pub fn microseconds(&self, folder: &Path) -> io::Result<u64> {
        let mut command = Command::new(&self.path);
        command
            .args(&self.arguments)
            .current_dir(folder)
            .stdin(Stdio::null())
            .stdout(Stdio::null())
            .stderr(Stdio::null());
        let start = Instant::now();
        let status = command.status();
        let time = start.elapsed();
        successful(
            &self.path,
            status.map_err(|error| with_path(&self.path, error))?,
        )?;
        Ok(u64::try_from(time.as_micros()).unwrap_or(u64::MAX))
    }
}

fn successful(program: &Path, status: ExitStatus) -> io::Result<()> {
    if status.success() {
        Ok(())
    } else {
        Err(with_path(program, io::Error::other(status.to_string())))
    }
}

/// The middle one of some values, the mean of the two middle ones where their count is even.
pub fn median(mut values: Vec<u64>) -> Option<u64> {
    values.sort_unstable();
    let upper = values.get(values.len() / 2)?;
    let lower = values.get((values.len() - 1) / 2)?;
    Some((lower + upper) / 2)
}

/// The stack and the heap at the moment of a run when they are largest together.
#[derive(Clone, Copy, Debug, PartialEq, Eq)]
pub struct Peak {
    pub stack: u64,
    pub heap: u64,
}

/// Counts by `valgrind`, whose own files go into a folder.
#[derive(Clone, Copy, Debug)]
pub struct Valgrind<'a> {
    pub command: &'a str,
    pub folder: &'a Path,
}

impl Valgrind<'_> {
    /// The instructions of one run in a folder.
    pub fn instructions(&self, program: &Program, folder: &Path) -> io::Result<u64> {
        let own_file = self.folder.join("callgrind.out");
        let mut option = OsString::from("--callgrind-out-file=");
        option.push(&own_file);
        let log = self.run(&["--tool=callgrind".as_ref(), &option], program, folder)?;
        instructions_in(&log).ok_or_else(|| self.without("a count", program))
    }

    /// The peak of the memory of one run in a folder.
    pub fn peak(&self, program: &Program, folder: &Path) -> io::Result<Peak> {
        let own_file = self.folder.join("massif.out");
        let mut option = OsString::from("--massif-out-file=");
        option.push(&own_file);
        let options = [
            "--tool=massif".as_ref(),
            "--stacks=yes".as_ref(),
            "--peak-inaccuracy=0.0".as_ref(),
            option.as_os_str(),
        ];
        self.run(&options, program, folder)?;
        let snapshots = fs::read(&own_file).map_err(|error| with_path(&own_file, error))?;
        peak_in(&String::from_utf8_lossy(&snapshots)).ok_or_else(|| self.without("a peak", program))
    }

    /// Runs a program under valgrind; hands back what is told on standard error.
    fn run(&self, options: &[&OsStr], program: &Program, folder: &Path) -> io::Result<String> {
        let output = Command::new(self.command)
            .args(options)
            .arg(&program.path)
            .args(&program.arguments)
            .current_dir(folder)
            .stdin(Stdio::null())
            .stdout(Stdio::null())
            .output()
            .map_err(|error| with_path(Path::new(self.command), error))?;
        successful(&program.path, output.status)?;
        Ok(String::from_utf8_lossy(&output.stderr).into_owned())
    }

    fn without(&self, what: &str, program: &Program) -> io::Error {
        let (command, path) = (self.command, program.path.display());
        io::Error::other(format!("{command} gives no line with {what} for {path}"))
    }
}

/// The count on the line `Collected` that callgrind ends with.
pub fn instructions_in(log: &str) -> Option<u64> {
    let counts = log
        .lines()
        .filter(|line| line.starts_with("=="))
        .find_map(|line| line.split_once("Collected :"))?
        .1;
    counts.split_whitespace().next()?.parse().ok()
}

/// The stack and the heap of the snapshot that massif marks as the peak.
pub fn peak_in(snapshots: &str) -> Option<Peak> {
    let (mut stack, mut heap) = (None, None);
    for line in snapshots.lines() {
        match line.split_once('=') {
            Some(("snapshot", _)) => (stack, heap) = (None, None),
            Some(("mem_stacks_B", bytes)) => stack = bytes.parse().ok(),
            Some(("mem_heap_B", bytes)) => heap = bytes.parse().ok(),
            Some(("heap_tree", "peak")) => {
                return Some(Peak {
                    stack: stack?,
                    heap: heap?,
                });
            }
            _ => {}
        }
    }
    None
}
