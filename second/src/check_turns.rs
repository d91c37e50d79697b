//! "Every public call has a promise that determines the reply and each byte of lent storage
//! afterwards, for all inputs, refused ones too": single calls on any tables, a case a line.
//!
//! ```text
//! turn N K R CELLS LOGS DECISIONS RACKS RECORD   NUMBER CELLS LOGS DECISIONS RACKS
//! sound N K R CELLS LOGS DECISIONS RACKS         NUMBER
//! fresh N K R CELLS LOGS DECISIONS               NUMBER CELLS LOGS DECISIONS RACKS
//! entry N K R LOGS RACK LANE PLACE               NUMBER ISSUER CUE
//! agree A B                                      1 or 0
//! longer A B                                     WHICH LENGTH
//! ```
//!
//! WHICH is 0 for the first log, 1 for the second, 2 where they do not agree.

use std::io::{self, BufRead, BufReader, ErrorKind, Read, Write};

use crate::logs::{agree, entry, longer, Entry};
use crate::night::{fresh, Night};
use crate::rack::{racks_from_bytes, racks_to_bytes, Rack, Racks, RACKS_LENGTH};
use crate::refusal::{number, Refusal};
use crate::sizes::MOST_RACKS;

/// Answers every case line; a malformed one ends it with an error that names the line.
pub fn check_turns<Source: Read>(
    mut cases: BufReader<Source>,
    out: &mut impl Write,
) -> io::Result<()> {
    let mut line = Vec::new();
    let mut line_number = 0u64;
    while cases.read_until(b'\n', &mut line)? > 0 {
        line_number += 1;
        let answer = answer_line(&line).map_err(|what| {
            io::Error::new(
                ErrorKind::InvalidData,
                format!("line {line_number}: {what}"),
            )
        })?;
        writeln!(out, "{answer}")?;
        line.clear();
        // Whoever waits for the replies before giving the next case gets them.
        if cases.buffer().is_empty() {
            out.flush()?;
        }
    }
    Ok(())
}

fn answer_line(line: &[u8]) -> Result<String, String> {
    let line = line.strip_suffix(b"\n").unwrap_or(line);
    let line = std::str::from_utf8(line).map_err(|_| "not a line of text".to_string())?;
    answer(line)
}

/// The answer to one case.
pub fn answer(case: &str) -> Result<String, String> {
    let fields: Vec<&str> = case.split(' ').collect();
    match *fields.as_slice() {
        ["turn", n, k, r, cells, logs, decisions, racks, record] => {
            turn_case(sizes([n, k, r])?, [cells, logs, decisions, racks], record)
        }
        ["sound", n, k, r, cells, logs, decisions, racks] => {
            sound_case(sizes([n, k, r])?, [cells, logs, decisions, racks])
        }
        ["fresh", n, k, r, cells, logs, decisions] => {
            fresh_case(sizes([n, k, r])?, [cells, logs, decisions])
        }
        ["entry", n, k, r, logs, rack, lane, place] => {
            entry_case(sizes([n, k, r])?, logs, [rack, lane, place])
        }
        ["agree", a, b] => Ok(u8::from(agree(&bytes(a)?, &bytes(b)?)).to_string()),
        ["longer", a, b] => longer_case(&bytes(a)?, &bytes(b)?),
        [call, ..] => Err(format!("no call with these fields: {call}")),
        [] => Err("no call".to_string()),
    }
}

fn turn_case(sizes: [u64; 3], tables: [&str; 4], record: &str) -> Result<String, String> {
    let record = bytes(record)?;
    match lent(sizes, tables)? {
        Ok(mut night) => {
            let reply = night.turn(&record);
            Ok(state(
                number(&reply),
                night.cells(),
                night.logs(),
                night.decisions(),
                night.racks(),
            ))
        }
        // Tables that are no night were not touched: they are told as they were given.
        Err(refusal) => Ok(format!("{} {}", refusal.number(), tables.join(" "))),
    }
}

fn sound_case(sizes: [u64; 3], tables: [&str; 4]) -> Result<String, String> {
    let reply = lent(sizes, tables)?.and_then(|night| {
        if night.is_sound() {
            Ok(())
        } else {
            Err(Refusal::NotSound)
        }
    });
    Ok(number(&reply).to_string())
}

fn fresh_case(sizes: [u64; 3], tables: [&str; 3]) -> Result<String, String> {
    let [cells, logs, decisions] = tables;
    let (mut cells, mut logs, mut decisions) = (bytes(cells)?, bytes(logs)?, bytes(decisions)?);
    let reply = fresh(sizes, &mut cells, &mut logs, &mut decisions);
    let number = number(&reply);
    let racks = reply.unwrap_or([Rack::default(); MOST_RACKS]);
    Ok(state(number, &cells, &logs, &decisions, &racks))
}

fn entry_case(sizes: [u64; 3], logs: &str, query: [&str; 3]) -> Result<String, String> {
    let [rack, lane, place] = query;
    let reply = entry(
        sizes,
        &bytes(logs)?,
        decimal(rack)?,
        decimal(lane)?,
        decimal(place)?,
    );
    let refused = number(&reply);
    let Entry { issuer, number } = reply.unwrap_or_default();
    Ok(format!("{refused} {issuer} {number}"))
}

fn longer_case(first: &[u8], second: &[u8]) -> Result<String, String> {
    let length = longer(first, second).len();
    let which = match (agree(first, second), length == first.len()) {
        (true, true) => 0,
        (true, false) => 1,
        (false, _) => 2,
    };
    Ok(format!("{which} {length}"))
}

/// The night of a case; a table that is malformed as text is no case at all.
fn lent(sizes: [u64; 3], tables: [&str; 4]) -> Result<Result<Night, Refusal>, String> {
    let [cells, logs, decisions, racks] = tables;
    let racks = racks_from_bytes(&bytes(racks)?)
        .ok_or_else(|| format!("the racks are not {RACKS_LENGTH} bytes"))?;
    Ok(Night::lent(
        sizes,
        bytes(cells)?,
        bytes(logs)?,
        bytes(decisions)?,
        racks,
    ))
}

fn state(number: u8, cells: &[u8], logs: &[u8], decisions: &[u8], racks: &Racks) -> String {
    format!(
        "{number} {} {} {} {}",
        hex(cells),
        hex(logs),
        hex(decisions),
        hex(&racks_to_bytes(racks))
    )
}

fn sizes(words: [&str; 3]) -> Result<[u64; 3], String> {
    let [racks, lanes, rounds] = words;
    Ok([decimal(racks)?, decimal(lanes)?, decimal(rounds)?])
}

fn decimal(word: &str) -> Result<u64, String> {
    let is_decimal = word.bytes().all(|digit| digit.is_ascii_digit());
    match word.parse() {
        Ok(number) if is_decimal => Ok(number),
        _ => Err(format!("not a number of 64 bits: {word}")),
    }
}

/// The bytes of a field in lower-case hex, `-` for none.
fn bytes(word: &str) -> Result<Vec<u8>, String> {
    if word == "-" {
        return Ok(Vec::new());
    }
    let pairs = word.as_bytes().chunks_exact(2);
    if word.is_empty() || !pairs.remainder().is_empty() {
        return Err("a byte string is not pairs of hex digits".to_string());
    }
    pairs
        .map(|pair| Some(digit(pair[0])? << 4 | digit(pair[1])?))
        .collect::<Option<Vec<u8>>>()
        .ok_or_else(|| "a byte string is not lower-case hex".to_string())
}

fn digit(letter: u8) -> Option<u8> {
    match letter {
        b'0'..=b'9' => Some(letter - b'0'),
        b'a'..=b'f' => Some(letter - b'a' + 10),
        _ => None,
    }
}

/// The lower-case hex of some bytes, `-` for none.
pub fn hex(bytes: &[u8]) -> String {
    const DIGITS: [char; 16] = [
        '0', '1', '2', '3', '4', '5', '6', '7', '8', '9', 'a', 'b', 'c', 'd', 'e', 'f',
    ];
    if bytes.is_empty() {
        return "-".to_string();
    }
    bytes
        .iter()
        .flat_map(|byte| [byte >> 4, byte & 15])
        .map(|digit| DIGITS[usize::from(digit)])
        .collect()
}
