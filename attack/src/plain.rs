//! The calls that no soundness test stands before: fresh, and two logs given as bytes.

use second::check_turns::hex;
use second::logs;
use second::night;
use second::rack::{Rack, RACKS_LENGTH};
use second::random::Random;
use second::refusal::number;
use second::sizes::{Sizes, MOST_RACKS};

use crate::card::{self, Longer, FIRST, NEITHER, SECOND};
use crate::judge::{reply_difference, Difference, Fenced, FencedTables, Verdict};
use crate::spoil::{length_off, other_sizes, sizes_out_of_range};
use crate::tables::{difference_in, given, rack_bytes, wide, Tables};

/// Tables to be filled afresh, of any bytes; sizes and lengths are right in two of three.
pub fn unfilled(sizes: Sizes, random: &mut Random) -> Tables {
    let mut any = |length: usize| (0..length).map(|_| random.byte()).collect::<Vec<u8>>();
    let tables = Tables {
        sizes: given(sizes),
        cells: any(sizes.cell_table_length()),
        logs: any(sizes.log_table_length()),
        decisions: any(sizes.decision_table_length()),
        racks: [0; RACKS_LENGTH],
    };
    match random.below(9) {
        0 => sizes_out_of_range(&tables, random),
        1 => other_sizes(&tables, random),
        2 => length_off(&tables, random),
        _ => tables,
    }
}

/// "Fresh: all cells and logs zero, all decisions 255", or refused and as before.
pub fn fresh(tables: &Tables) -> Verdict {
    let mut after = tables.clone();
    let reply = night::fresh(
        wide(tables.sizes),
        &mut after.cells,
        &mut after.logs,
        &mut after.decisions,
    );
    let second = number(&reply);
    after.racks = rack_bytes(&reply.unwrap_or([Rack::default(); MOST_RACKS]));
    let mut fenced = FencedTables::new(tables);
    let (card, racks) = card::fresh(tables.sizes, &mut fenced.lend());
    let difference = reply_difference(card, second)
        .or_else(|| fenced.difference(&after))
        .or_else(|| difference_in("racks", &racks, &after.racks));
    match difference {
        None => Ok(second),
        Some(what) => {
            let [n, k, rounds] = tables.sizes;
            let (cells, logs) = (hex(&tables.cells), hex(&tables.logs));
            let decisions = hex(&tables.decisions);
            Err(Box::new(Difference {
                call: "night_fresh",
                given: format!("sizes {:?}", tables.sizes),
                what,
                line: Some(format!("fresh {n} {k} {rounds} {cells} {logs} {decisions}")),
            }))
        }
    }
}

/// Two logs: one often a beginning of the other, or with one byte changed or one more.
pub fn two_logs(random: &mut Random) -> [Vec<u8>; 2] {
    let length = random.pick(&[0, 1, 2, 4, 6, 7, 8, 128]).unwrap_or(0);
    let a: Vec<u8> = (0..length).map(|_| random.below(9) as u8).collect();
    let kept = match random.below(3) {
        0 => length,
        1 => random.between(0, length / 2) * 2,
        _ => random.between(0, length),
    };
    let mut b = a[..kept].to_vec();
    match random.below(4) {
        0 => b.push(random.below(9) as u8),
        1 if kept > 0 => {
            let any = random.below(kept);
            let index = random.pick(&[kept - 1, any]).unwrap_or(any);
            b[index] ^= 1;
        }
        _ => {}
    }
    if random.one_in(2) {
        [a, b]
    } else {
        [b, a]
    }
}

/// "Two logs given as bytes agree when both lengths are even and one is a beginning of the other."
pub fn agree(a: &[u8], b: &[u8]) -> Verdict {
    let second = u8::from(logs::agree(a, b));
    let logs = [a, b].map(Fenced::new);
    let card = card::agree(logs[0].bytes(), logs[1].bytes());
    match reply_difference(card, second).or_else(|| logs_changed(&logs, a, b)) {
        None => Ok(second),
        Some(what) => Err(of_two_logs("night_agree", "agree", a, b, what)),
    }
}

/// "A second call hands back the longer log itself, the first if equal, and an empty part of the
/// first if they don't agree." The verdict is which of them came back.
pub fn longer(a: &[u8], b: &[u8]) -> Verdict {
    let length = logs::longer(a, b).len();
    let which = match (logs::agree(a, b), length == a.len()) {
        (true, true) => FIRST,
        (true, false) => SECOND,
        (false, _) => NEITHER,
    };
    let second = Longer { which, length };
    let logs = [a, b].map(Fenced::new);
    let card = card::longer(logs[0].bytes(), logs[1].bytes());
    let difference = (card != second)
        .then(|| format!("reply: card {card:?}, second {second:?}"))
        .or_else(|| logs_changed(&logs, a, b));
    match difference {
        None => Ok(which),
        Some(what) => Err(of_two_logs("night_longer", "longer", a, b, what)),
    }
}

fn logs_changed(logs: &[Fenced; 2], a: &[u8], b: &[u8]) -> Option<String> {
    difference_in("first log", logs[0].bytes(), a)
        .or_else(|| difference_in("second log", logs[1].bytes(), b))
        .or_else(|| logs.iter().find_map(Fenced::difference))
}

fn of_two_logs(
    call: &'static str,
    word: &str,
    a: &[u8],
    b: &[u8],
    what: String,
) -> Box<Difference> {
    let line = format!("{word} {} {}", hex(a), hex(b));
    Box::new(Difference {
        call,
        given: line.clone(),
        what,
        line: Some(line),
    })
}
