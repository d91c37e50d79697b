//! "The round's last step also settles every lane. L is the log length as it then stands:
//!
//! 1. if the news has place L + 1, append its previous cue;
//! 2. if the result is committed and has place L, append its cue;
//! 3. if the result has place L, hold it; otherwise hold the rack's own next cue: place L,
//!    number 1 + the count of its own cues in this log, previous = the last entry, or zeros
//!    at L = 0."

use crate::cell::{Cell, Value, COMMITTED};
use crate::logs::{entries, Entry};
use crate::refusal::Refusal;
use crate::sizes::LOG_RECORD;

/// A settled lane: the whole log afterwards, and what the rack holds then.
#[derive(Clone, Debug, PartialEq, Eq)]
pub struct Settled {
    pub log: Vec<Entry>,
    pub held: Value,
}

/// Settles one lane of a rack; a log that would be longer than its R records is refused.
pub fn settle(rack: usize, records: &[u8], result: Cell, news: Value) -> Result<Settled, Refusal> {
    let mut log: Vec<Entry> = entries(records).collect();
    if usize::from(news.place) == log.len() + 1 {
        log.push(Entry::new(news.previous_issuer, news.previous_number));
    }
    if result.mark == COMMITTED && usize::from(result.value.place) == log.len() {
        log.push(Entry::new(result.value.issuer, result.value.number));
    }
    if log.len() > records.len() / LOG_RECORD {
        return Err(Refusal::LogTooLong);
    }
    let held = if usize::from(result.value.place) == log.len() {
        result.value
    } else {
        own_next_cue(rack, &log)
    };
    Ok(Settled { log, held })
}

fn own_next_cue(rack: usize, log: &[Entry]) -> Value {
    let own = log
        .iter()
        .filter(|entry| usize::from(entry.issuer) == rack)
        .count();
    let previous = log.last().copied().unwrap_or_default();
    // A log has at most 64 entries and a rack is below 8, so all of these fit a byte.
    Value {
        place: log.len() as u8,
        issuer: rack as u8,
        number: own as u8 + 1,
        previous_issuer: previous.issuer,
        previous_number: previous.number,
    }
}
