//! "Two logs given as bytes agree when both lengths are even and one is a beginning of
//! the other. A second call hands back the longer log itself, the first if equal, and an
//! empty part of the first if they don't agree."

use crate::cell::is_cue;
use crate::refusal::Refusal;
use crate::sizes::{Sizes, LOG_RECORD};

/// One cue in a log: who issued it, and which of its cues it is.
#[derive(Clone, Copy, Debug, Default, PartialEq, Eq)]
pub struct Entry {
    pub issuer: u8,
    pub number: u8,
}

impl Entry {
    pub fn new(issuer: u8, number: u8) -> Entry {
        Entry { issuer, number }
    }

    fn from_record(record: &[u8]) -> Entry {
        match *record {
            [issuer, number] => Entry::new(issuer, number),
            _ => Entry::default(),
        }
    }

    fn is_zero(&self) -> bool {
        *self == Entry::default()
    }
}

/// The records of a log's bytes "before the first zero one".
pub fn entries(log: &[u8]) -> impl Iterator<Item = Entry> + '_ {
    log.chunks_exact(LOG_RECORD)
        .map(Entry::from_record)
        .take_while(|entry| !entry.is_zero())
}

/// "a log's length is the number of its records before the first zero one".
pub fn length(log: &[u8]) -> usize {
    entries(log).count()
}

/// The log of a rack and lane in a log table, "the lanes of rack 0 first".
pub fn log_of(logs: &[u8], sizes: Sizes, rack: usize, lane: usize) -> &[u8] {
    let start = log_start(sizes, rack, lane);
    &logs[start..start + sizes.log_length()]
}

/// Where the log of a rack and lane starts in the log table.
pub fn log_start(sizes: Sizes, rack: usize, lane: usize) -> usize {
    (rack * sizes.lanes() + lane) * sizes.log_length()
}

/// "used entries have issuer below n and number 1 to R + 1, unused ones are zero".
pub fn logs_are_sound(logs: &[u8], sizes: Sizes) -> bool {
    logs.chunks_exact(sizes.log_length())
        .all(|log| log_is_sound(log, sizes))
}

fn log_is_sound(log: &[u8], sizes: Sizes) -> bool {
    let (used, unused) = log.split_at(LOG_RECORD * length(log));
    entries(used).all(|entry| is_cue(entry.issuer, entry.number, sizes))
        && unused.iter().all(|byte| *byte == 0)
}

/// The log query: the entry at a place below the log's length.
pub fn entry(
    sizes: [u64; 3],
    logs: &[u8],
    rack: u64,
    lane: u64,
    place: u64,
) -> Result<Entry, Refusal> {
    let [racks, lanes, rounds] = sizes;
    let sizes = Sizes::new(racks, lanes, rounds)?;
    if logs.len() != sizes.log_table_length() {
        return Err(Refusal::Size);
    }
    if !logs_are_sound(logs, sizes) {
        return Err(Refusal::NotSound);
    }
    let rack = below(sizes.racks(), rack)?;
    let lane = below(sizes.lanes(), lane)?;
    let place = below(sizes.rounds(), place)?;
    entries(log_of(logs, sizes, rack, lane))
        .nth(place)
        .ok_or(Refusal::NotThere)
}

fn below(limit: usize, given: u64) -> Result<usize, Refusal> {
    match usize::try_from(given) {
        Ok(index) if index < limit => Ok(index),
        _ => Err(Refusal::NotThere),
    }
}

pub fn agree(first: &[u8], second: &[u8]) -> bool {
    let is_even = |log: &[u8]| log.len() & 1 == 0;
    is_even(first) && is_even(second) && (first.starts_with(second) || second.starts_with(first))
}

pub fn longer<'a>(first: &'a [u8], second: &'a [u8]) -> &'a [u8] {
    if !agree(first, second) {
        &first[..0]
    } else if second.len() > first.len() {
        second
    } else {
        first
    }
}
