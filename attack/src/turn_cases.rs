//! A file of turns to be measured, each with its tables: racks, lanes and rounds in a byte each,
//! cells, logs and decisions of the exact lengths, the eight racks, and the record.

use std::io::{self, ErrorKind, Write};

use second::night::Night;
use second::rack::RACKS_LENGTH;
use second::random::Random;
use second::records::RECORD;
use second::sizes::Sizes;

use crate::played::{all_turns, Played};
use crate::records::right;
use crate::tables::{given, Tables};

/// A turn with its tables, in the form of each program.
pub struct TurnCase {
    pub tables: Tables,
    pub night: Night,
    pub record: [u8; RECORD],
}

/// All cases of a file's bytes.
pub fn read_cases(mut bytes: &[u8]) -> io::Result<Vec<TurnCase>> {
    let mut cases = Vec::new();
    while !bytes.is_empty() {
        let case = read_case(&mut bytes).ok_or_else(|| {
            let what = format!("case {} is cut short or has a bad size", cases.len());
            io::Error::new(ErrorKind::InvalidData, what)
        })?;
        cases.push(case);
    }
    Ok(cases)
}

fn read_case(bytes: &mut &[u8]) -> Option<TurnCase> {
    let [racks, lanes, rounds]: [u8; 3] = take(bytes, 3)?.try_into().ok()?;
    let sizes = Sizes::new(racks.into(), lanes.into(), rounds.into()).ok()?;
    let tables = Tables {
        sizes: given(sizes),
        cells: take(bytes, sizes.cell_table_length())?.to_vec(),
        logs: take(bytes, sizes.log_table_length())?.to_vec(),
        decisions: take(bytes, sizes.decision_table_length())?.to_vec(),
        racks: take(bytes, RACKS_LENGTH)?.try_into().ok()?,
    };
    Some(TurnCase {
        night: tables.night().ok()?,
        record: take(bytes, RECORD)?.try_into().ok()?,
        tables,
    })
}

fn take<'a>(bytes: &mut &'a [u8], length: usize) -> Option<&'a [u8]> {
    let (taken, rest) = bytes.split_at_checked(length)?;
    *bytes = rest;
    Some(taken)
}

fn write_case(tables: &Tables, record: &[u8], out: &mut impl Write) -> io::Result<()> {
    out.write_all(&tables.sizes.map(|size| size as u8))?;
    out.write_all(&tables.cells)?;
    out.write_all(&tables.logs)?;
    out.write_all(&tables.decisions)?;
    out.write_all(&tables.racks)?;
    out.write_all(record)
}

/// Writes so many turns of one night of the largest size, spread over the whole of it, each with
/// the tables just before it; all of them are taken.
pub fn write_cases(seed: u64, count: usize, out: &mut impl Write) -> io::Result<()> {
    let sizes = Sizes::LARGEST;
    let turns = all_turns(sizes);
    if count > turns {
        let what = format!("a night of the largest size has {turns} turns");
        return Err(io::Error::new(ErrorKind::InvalidInput, what));
    }
    let mut random = Random::new(seed);
    let mut played = Played::whole(sizes, &mut random);
    let mut turn = 0;
    for index in 0..count {
        let stop = (index * turns + random.below(turns)) / count;
        while turn < stop && played.play(&mut random) {
            turn += 1;
        }
        if let Some(rack) = played.next_rack(&mut random) {
            let record = right(played.night(), rack, &mut random);
            write_case(&Tables::of(played.night()), &record, out)?;
            played.take(&record);
            turn += 1;
        }
    }
    Ok(())
}

#[cfg(test)]
mod tests {
    use super::*;
    use crate::tables::racks_of;

    #[test]
    fn cases_are_read_as_they_were_written_and_all_are_taken() {
        let mut bytes = Vec::new();
        write_cases(1, 25, &mut bytes).expect("bytes can be written");
        let mut cases = read_cases(&bytes).expect("whole cases");
        assert_eq!(cases.len(), 25);
        let mut again = Vec::new();
        for case in &mut cases {
            write_case(&case.tables, &case.record, &mut again).expect("bytes can be written");
            assert_eq!(case.night.racks(), &racks_of(&case.tables.racks));
            assert_eq!(case.night.turn(&case.record), Ok(()));
        }
        assert_eq!(bytes, again);
        assert!(read_cases(&bytes[1..]).is_err());
        assert!(read_cases(&bytes[..bytes.len() - 1]).is_err());
    }

    #[test]
    fn a_night_has_no_more_turns_than_all() {
        assert!(write_cases(1, all_turns(Sizes::LARGEST) + 1, &mut Vec::new()).is_err());
    }
}
