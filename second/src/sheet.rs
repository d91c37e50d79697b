//! "Else: the size line; for each refused turn `refused`, its index from 0, its number; a
//! line of turns read, taken and refused; then for each rack and lane `log`, rack, lane,
//! `finished` rounds, `length`, and under it each entry: place, issuer, number, code."

use std::io::{self, BufReader, Read, Write};
use std::path::Path;

use crate::cues::CueLists;
use crate::files::open_night;
use crate::logs::entries;
use crate::night::Night;
use crate::records::Records;
use crate::sizes::Sizes;
use crate::sound::SoundNight;

/// Prints the sheet of the three files in a folder.
pub fn sheet_of_folder(folder: &Path, out: &mut impl Write) -> io::Result<()> {
    let [size, cues, turns] = open_night(folder)?;
    sheet(size, cues, turns, out)
}

/// Prints the sheet of three files that are open.
pub fn sheet<Source: Read>(
    size: BufReader<Source>,
    cues: BufReader<Source>,
    turns: BufReader<Source>,
    out: &mut impl Write,
) -> io::Result<()> {
    let Some(sizes) = read_sizes(size)? else {
        return writeln!(out, "bad size");
    };
    let lists = match read_cues(sizes, cues)? {
        Ok(lists) => lists,
        Err(index) => return writeln!(out, "bad cues {index}"),
    };
    let mut night = SoundNight::fresh(sizes);
    print_sizes(sizes, out)?;
    play_turns(&mut night, turns, out)?;
    print_logs(night.night(), &lists, out)
}

fn read_sizes(size: impl Read) -> io::Result<Option<Sizes>> {
    // A fifth byte is enough to tell that the file is too long.
    let mut bytes = Vec::new();
    size.take(5).read_to_end(&mut bytes)?;
    Ok(Sizes::from_bytes(&bytes).ok())
}

/// The cue lists, or the index of the first bad cue record.
fn read_cues(sizes: Sizes, cues: BufReader<impl Read>) -> io::Result<Result<CueLists, u64>> {
    let mut lists = CueLists::new(sizes);
    let mut records = Records::new(cues);
    let mut index = 0;
    while let Some(record) = records.next_record()? {
        if lists.add(record).is_err() {
            return Ok(Err(index));
        }
        index += 1;
    }
    Ok(Ok(lists))
}

fn print_sizes(sizes: Sizes, out: &mut impl Write) -> io::Result<()> {
    let (racks, lanes, rounds) = (sizes.racks(), sizes.lanes(), sizes.rounds());
    writeln!(out, "racks {racks} lanes {lanes} rounds {rounds}")
}

fn play_turns(
    night: &mut SoundNight,
    turns: BufReader<impl Read>,
    out: &mut impl Write,
) -> io::Result<()> {
    let mut records = Records::new(turns);
    let (mut read, mut refused) = (0u64, 0u64);
    while let Some(record) = records.next_record()? {
        if let Err(refusal) = night.turn(record) {
            writeln!(out, "refused {read} {}", refusal.number())?;
            refused += 1;
        }
        read += 1;
    }
    writeln!(
        out,
        "turns {read} taken {} refused {refused}",
        read - refused
    )
}

fn print_logs(night: &Night, lists: &CueLists, out: &mut impl Write) -> io::Result<()> {
    for (rack, state) in night.racks().iter().enumerate().take(night.sizes().racks()) {
        let finished = state.round - 1;
        for lane in 0..night.sizes().lanes() {
            let log: Vec<_> = entries(night.log(rack, lane)).collect();
            let length = log.len();
            writeln!(out, "log {rack} {lane} finished {finished} length {length}")?;
            for (place, entry) in log.into_iter().enumerate() {
                let code = lists.code(entry.issuer, lane, entry.number);
                writeln!(out, "{place} {} {} {code}", entry.issuer, entry.number)?;
            }
        }
    }
    Ok(())
}
