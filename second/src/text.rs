//! A night as plain text, from which its three files are made and to which they go back.
//!
//! "A turn is 4 bytes: rack, lane, source, zero. Lane and source are both 255 except at an
//! answer step." "A cue record is 4 bytes: rack, lane, code (low byte first)".
//!
//! ```text
//! size 2 2 4            # racks lanes rounds
//! cue 0 1 17            # rack lane code
//! turn 0                # a turn that is no answer
//! answer 0 1 0          # rack lane source
//! raw turns 0 255 255 1 # any bytes, for size, cues or turns
//! repeat 12             # the lines up to the matching end, that many times
//! turn 0 times 3        # a turn, answer, cue or raw line, that many times
//! end
//! ```

use std::fmt::{self, Display};
use std::io::{self, BufReader, Read, Write};
use std::path::Path;

use crate::files::{open_night, NightFiles, CUES, SIZE, TURNS};
use crate::records::{Records, RECORD};

/// No packed file is longer than this.
pub const MOST_BYTES: usize = 64 << 20;

/// The first line of a text that is no line of the form.
#[derive(Clone, Debug, PartialEq, Eq)]
pub struct BadLine {
    pub line: usize,
    pub what: String,
}

impl Display for BadLine {
    fn fmt(&self, formatter: &mut fmt::Formatter) -> fmt::Result {
        write!(formatter, "{}: {}", self.line, self.what)
    }
}

/// The three files that a text stands for.
pub fn pack(text: &[u8]) -> Result<NightFiles, BadLine> {
    let mut packer = Packer::default();
    for (index, line) in text.split(|byte| *byte == b'\n').enumerate() {
        let line_number = index + 1;
        packer.line(line, line_number).map_err(|what| BadLine {
            line: line_number,
            what,
        })?;
    }
    match packer.repeats.last() {
        Some(repeat) => Err(BadLine {
            line: repeat.line,
            what: "repeat without end".to_string(),
        }),
        None => Ok(packer.files),
    }
}

#[derive(Default)]
struct Packer {
    files: NightFiles,
    size_is_given: bool,
    repeats: Vec<Repeat>,
}

/// A repeat that is not ended yet: where its bytes start in each file.
struct Repeat {
    line: usize,
    count: u64,
    starts: [usize; 3],
}

impl Packer {
    fn line(&mut self, line: &[u8], line_number: usize) -> Result<(), String> {
        let line = std::str::from_utf8(line).map_err(|_| "not a line of text".to_string())?;
        let item = line.split('#').next().unwrap_or_default();
        let words: Vec<&str> = item.split_whitespace().collect();
        match *words.as_slice() {
            [] => Ok(()),
            ["repeat", count] => self.start_repeat(number(count)?, line_number),
            ["end"] => self.end_repeat(),
            ["size", racks, lanes, rounds] => self.size(&[racks, lanes, rounds]),
            [ref item @ .., "times", count] => self.item(item, number(count)?),
            ref item => self.item(item, 1),
        }
    }

    fn size(&mut self, words: &[&str]) -> Result<(), String> {
        if self.size_is_given {
            return Err("a second size line".to_string());
        }
        if !self.repeats.is_empty() {
            return Err("a size line inside a repeat".to_string());
        }
        self.size_is_given = true;
        let mut record = bytes(words)?;
        record.push(0);
        append(&mut self.files.size, SIZE, &record, 1)
    }

    fn item(&mut self, words: &[&str], times: u64) -> Result<(), String> {
        let files = &mut self.files;
        match *words {
            ["cue", rack, lane, code] => {
                let [low, high] = code_of(code)?.to_le_bytes();
                let record = [byte(rack)?, byte(lane)?, low, high];
                append(&mut files.cues, CUES, &record, times)
            }
            ["turn", rack] => {
                let record = [byte(rack)?, 255, 255, 0];
                append(&mut files.turns, TURNS, &record, times)
            }
            ["answer", rack, lane, source] => {
                let record = [byte(rack)?, byte(lane)?, byte(source)?, 0];
                append(&mut files.turns, TURNS, &record, times)
            }
            ["raw", "size", ref raw @ ..] => append(&mut files.size, SIZE, &bytes(raw)?, times),
            ["raw", "cues", ref raw @ ..] => append(&mut files.cues, CUES, &bytes(raw)?, times),
            ["raw", "turns", ref raw @ ..] => append(&mut files.turns, TURNS, &bytes(raw)?, times),
            _ => Err(format!("no line of a night: {}", words.join(" "))),
        }
    }

    fn start_repeat(&mut self, count: u64, line: usize) -> Result<(), String> {
        let starts = self.files.named().map(|(_, bytes)| bytes.len());
        self.repeats.push(Repeat {
            line,
            count,
            starts,
        });
        Ok(())
    }

    fn end_repeat(&mut self) -> Result<(), String> {
        let repeat = self.repeats.pop().ok_or("end without repeat")?;
        let files = [
            (&mut self.files.size, SIZE),
            (&mut self.files.cues, CUES),
            (&mut self.files.turns, TURNS),
        ];
        for ((file, name), start) in files.into_iter().zip(repeat.starts) {
            repeat_from(file, name, start, repeat.count)?;
        }
        Ok(())
    }
}

/// Makes what stands in a file from the start on stand there that many times.
fn repeat_from(file: &mut Vec<u8>, name: &str, start: usize, count: u64) -> Result<(), String> {
    let body = start..file.len();
    let Some(more) = count.checked_sub(1) else {
        file.truncate(start);
        return Ok(());
    };
    for _ in 0..times_within_limit(file, name, body.len(), more)? {
        file.extend_from_within(body.clone());
    }
    Ok(())
}

/// Adds bytes to a file that many times.
fn append(file: &mut Vec<u8>, name: &str, bytes: &[u8], times: u64) -> Result<(), String> {
    for _ in 0..times_within_limit(file, name, bytes.len(), times)? {
        file.extend_from_slice(bytes);
    }
    Ok(())
}

/// How often so many bytes are to be added, unless the file would pass its limit.
fn times_within_limit(file: &[u8], name: &str, length: usize, times: u64) -> Result<usize, String> {
    // No bytes need not be added at all, however large the count.
    if length == 0 {
        return Ok(0);
    }
    let times = usize::try_from(times).unwrap_or(usize::MAX);
    if times > (MOST_BYTES - file.len()) / length {
        return Err(format!("{name} would be longer than {MOST_BYTES} bytes"));
    }
    Ok(times)
}

fn number(word: &str) -> Result<u64, String> {
    let is_decimal = word.bytes().all(|digit| digit.is_ascii_digit());
    match word.parse() {
        Ok(number) if is_decimal => Ok(number),
        _ => Err(format!("not a number: {word}")),
    }
}

fn byte(word: &str) -> Result<u8, String> {
    u8::try_from(number(word)?).map_err(|_| format!("not a number from 0 to 255: {word}"))
}

fn code_of(word: &str) -> Result<u16, String> {
    u16::try_from(number(word)?).map_err(|_| format!("not a number from 0 to 65535: {word}"))
}

fn bytes(words: &[&str]) -> Result<Vec<u8>, String> {
    if words.is_empty() {
        return Err("raw without bytes".to_string());
    }
    words.iter().map(|word| byte(word)).collect()
}

/// Prints the text of the three files in a folder.
pub fn show_folder(folder: &Path, out: &mut impl Write) -> io::Result<()> {
    let [size, cues, turns] = open_night(folder)?;
    show(size, cues, turns, out)
}

/// Prints the text of three files that are open.
pub fn show<Source: Read>(
    mut size: BufReader<Source>,
    cues: BufReader<Source>,
    turns: BufReader<Source>,
    out: &mut impl Write,
) -> io::Result<()> {
    let mut bytes = Vec::new();
    size.read_to_end(&mut bytes)?;
    match *bytes.as_slice() {
        [] => {}
        [racks, lanes, rounds, 0] => writeln!(out, "size {racks} {lanes} {rounds}")?,
        ref bytes => writeln!(out, "{}", raw("size", bytes))?,
    }
    show_records(cues, cue_line, out)?;
    show_records(turns, turn_line, out)
}

fn cue_line(record: &[u8]) -> String {
    match *record {
        [rack, lane, low, high] => {
            format!("cue {rack} {lane} {}", u16::from_le_bytes([low, high]))
        }
        _ => raw("cues", record),
    }
}

fn turn_line(record: &[u8]) -> String {
    match *record {
        [rack, 255, 255, 0] => format!("turn {rack}"),
        [rack, lane, source, 0] => format!("answer {rack} {lane} {source}"),
        _ => raw("turns", record),
    }
}

fn raw(file: &str, bytes: &[u8]) -> String {
    let words: Vec<String> = bytes.iter().map(u8::to_string).collect();
    format!("raw {file} {}", words.join(" "))
}

/// Prints one line for each run of equal records.
fn show_records(
    file: BufReader<impl Read>,
    line: fn(&[u8]) -> String,
    out: &mut impl Write,
) -> io::Result<()> {
    let mut records = Records::new(file);
    let mut run = Vec::with_capacity(RECORD);
    let mut times = 0u64;
    while let Some(record) = records.next_record()? {
        if run != record {
            show_run(&run, times, line, out)?;
            run.clear();
            run.extend_from_slice(record);
            times = 0;
        }
        times += 1;
    }
    show_run(&run, times, line, out)
}

fn show_run(
    run: &[u8],
    times: u64,
    line: fn(&[u8]) -> String,
    out: &mut impl Write,
) -> io::Result<()> {
    match times {
        0 => Ok(()),
        1 => writeln!(out, "{}", line(run)),
        _ => writeln!(out, "{} times {times}", line(run)),
    }
}
