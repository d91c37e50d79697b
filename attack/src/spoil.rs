//! Tables with some bytes changed, sizes out of range, and lengths that are not exact.

use second::rack::RACK_LENGTH;
use second::random::Random;
use second::sizes::{CELL_RECORD, LOG_RECORD, MOST_LANES, MOST_RACKS, MOST_ROUNDS};

use crate::card::GivenSizes;
use crate::tables::Tables;

const MOSTS: GivenSizes = [MOST_RACKS, MOST_LANES, MOST_ROUNDS];

/// One to three bytes changed anywhere in cells, logs, decisions or racks.
pub fn changed(tables: &Tables, random: &mut Random) -> Tables {
    let mut changed = tables.clone();
    // One alone more often, since of three only the first that is found has a say.
    let count = random.pick(&[1, 1, 1, 2, 3]).unwrap_or(1);
    // A byte that is drawn twice may come back to what it was.
    while changed == *tables {
        for _ in 0..count {
            change(&mut changed, random);
        }
    }
    changed
}

fn change(tables: &mut Tables, random: &mut Random) {
    let [n, k, rounds] = tables.sizes;
    let table: &mut [u8] = match random.below(8) {
        0..=2 => &mut tables.cells,
        3 => &mut tables.logs,
        4 => &mut tables.decisions,
        5 => &mut tables.racks,
        _ => &mut tables.racks[..n * RACK_LENGTH],
    };
    let index = random.below(table.len());
    let byte = table[index];
    // Bytes at the ends of some range come up more often.
    let bytes = [
        0,
        1,
        2,
        3,
        4,
        255,
        n - 1,
        n,
        k,
        rounds,
        rounds + 1,
        rounds + 2,
        random.below(256),
    ];
    table[index] = match random.below(4) {
        0 => byte.wrapping_add(1),
        1 => byte.wrapping_sub(1),
        _ => random.pick(&bytes).unwrap_or(0) as u8,
    };
    if table[index] == byte {
        table[index] ^= 1;
    }
}

/// One whole record emptied, or another of its kind put in its place: what stays may be sound.
pub fn record_changed(tables: &Tables, random: &mut Random) -> Tables {
    let mut changed = tables.clone();
    // Some tables have only one record of a kind, and then nothing changes.
    while changed == *tables {
        change_record(&mut changed, random);
    }
    changed
}

fn change_record(tables: &mut Tables, random: &mut Random) {
    let [n, k, rounds] = tables.sizes;
    let rack = RACK_LENGTH * random.below(n);
    let rack = &mut tables.racks[rack..rack + RACK_LENGTH];
    match random.below(8) {
        0..=2 => {
            let section = random.below(3) * rounds;
            // More often in the round that this rack is in.
            let round = match usize::from(rack[0]) {
                round if (1..=rounds).contains(&round) && !random.one_in(4) => round - 1,
                _ => random.below(rounds),
            };
            let part = CELL_RECORD * k * n;
            let start = (section + round) * part;
            replace(&mut tables.cells[start..start + part], CELL_RECORD, random);
        }
        3 => replace(&mut tables.logs, LOG_RECORD, random),
        4 => replace(&mut tables.decisions, 1, random),
        5 => {
            // Gathered first and second cells, held values, results and news.
            let parts = [
                (3, 51, 6),
                (51, 99, 6),
                (99, 119, 5),
                (119, 143, 6),
                (143, 163, 5),
            ];
            let (start, end, length) = random.pick(&parts).unwrap_or(parts[0]);
            replace(&mut rack[start..end], length, random);
        }
        6 => {
            rack[0] = random.between(1, rounds + 1) as u8;
            rack[1] = random.below(2 + k * (2 * n + 2)) as u8;
            rack[2] = if rack[1] < 2 {
                255
            } else {
                random.below(k) as u8
            };
        }
        _ => replace(&mut tables.racks, RACK_LENGTH, random),
    }
}

/// Empties one of some records, or puts another of them in its place.
fn replace(records: &mut [u8], length: usize, random: &mut Random) {
    let count = records.len() / length;
    let start = length * random.below(count);
    let other = length * random.below(count);
    if random.one_in(2) {
        records[start..start + length].fill(0);
    } else {
        records.copy_within(other..other + length, start);
    }
}

/// Sizes out of range, over tables of the lengths they had or of the lengths for those sizes.
pub fn sizes_out_of_range(tables: &Tables, random: &mut Random) -> Tables {
    let mut spoiled = tables.clone();
    let index = random.below(3);
    if random.one_in(2) {
        spoiled.sizes[index] = random.pick(&[0, MOSTS[index] + 1]).unwrap_or(0);
        let [n, k, rounds] = spoiled.sizes;
        spoiled.cells.resize(24 * rounds * k * n, 0);
        spoiled.logs.resize(2 * rounds * k * n, 0);
        spoiled.decisions.resize(rounds * k, 255);
        return spoiled;
    }
    spoiled.sizes[index] = out_of_range(index, tables.sizes[index], random);
    if random.one_in(4) {
        let other = random.below(3);
        spoiled.sizes[other] = out_of_range(other, tables.sizes[other], random);
    }
    spoiled
}

/// A size past its range; more often one that is the right one to fewer bits.
fn out_of_range(index: usize, right: usize, random: &mut Random) -> usize {
    let sizes = [
        0,
        MOSTS[index] + 1,
        65,
        255,
        256,
        right + (1 << 8),
        right + (1 << 16),
        1 << 32,
        right + (1 << 32),
        right + (1 << 61),
        right + (1 << 62),
        right + (1 << 63),
        usize::MAX - 1,
        usize::MAX,
    ];
    random.pick(&sizes).unwrap_or(0)
}

/// Other sizes in range: where lanes times rounds is the same, all three lengths are exact too.
pub fn other_sizes(tables: &Tables, random: &mut Random) -> Tables {
    let [n, k, rounds] = tables.sizes;
    let same_lengths: Vec<GivenSizes> = (1..=MOST_LANES)
        .filter(|lanes| *lanes != k && k * rounds % lanes == 0)
        .map(|lanes| [n, lanes, k * rounds / lanes])
        .filter(|[_, _, rounds]| *rounds <= MOST_ROUNDS)
        .collect();
    let mut any_sizes = MOSTS.map(|most| random.between(1, most));
    if any_sizes == tables.sizes {
        any_sizes[2] = rounds % MOST_ROUNDS + 1;
    }
    let same_lengths = random.pick(&same_lengths).filter(|_| !random.one_in(3));
    Tables {
        sizes: same_lengths.unwrap_or(any_sizes),
        ..tables.clone()
    }
}

/// One of the three tables a byte shorter or longer, or empty, or twice as long.
pub fn length_off(tables: &Tables, random: &mut Random) -> Tables {
    let mut spoiled = tables.clone();
    let table = match random.below(3) {
        0 => &mut spoiled.cells,
        1 => &mut spoiled.logs,
        _ => &mut spoiled.decisions,
    };
    match random.below(10) {
        0 => table.clear(),
        1 => table.extend_from_within(..),
        2..=5 => table.push(random.pick(&[0, 1, 255]).unwrap_or(0)),
        _ => {
            table.pop();
        }
    }
    spoiled
}

#[cfg(test)]
mod tests {
    use super::*;
    use crate::tables::given;
    use second::night::Night;
    use second::refusal::Refusal;
    use second::sizes::Sizes;

    fn fresh() -> Tables {
        let sizes = Sizes::new(2, 2, 4).expect("sizes in range");
        Tables::of(&Night::fresh(sizes))
    }

    #[test]
    fn one_to_three_bytes_are_changed() {
        let tables = fresh();
        for seed in 0..500 {
            let changed = changed(&tables, &mut Random::new(seed));
            let count =
                |one: &[u8], two: &[u8]| one.iter().zip(two).filter(|(a, b)| a != b).count();
            let changes = count(&changed.cells, &tables.cells)
                + count(&changed.logs, &tables.logs)
                + count(&changed.decisions, &tables.decisions)
                + count(&changed.racks, &tables.racks);
            assert!((1..=3).contains(&changes), "seed {seed}");
            assert_eq!(changed.sizes, tables.sizes);
        }
    }

    #[test]
    fn sizes_out_of_range_and_lengths_off_are_no_night() {
        let tables = fresh();
        for seed in 0..500 {
            let random = &mut Random::new(seed);
            let spoiled = sizes_out_of_range(&tables, random);
            assert_eq!(spoiled.night().err(), Some(Refusal::Size), "seed {seed}");
            let spoiled = length_off(&tables, random);
            assert_eq!(spoiled.night().err(), Some(Refusal::Size), "seed {seed}");
        }
    }

    #[test]
    fn other_sizes_are_in_range_and_some_fit() {
        let tables = fresh();
        let mut fitting = 0;
        for seed in 0..500 {
            let other = other_sizes(&tables, &mut Random::new(seed));
            assert_ne!(other.sizes, tables.sizes, "seed {seed}");
            assert!((0..3).all(|index| (1..=MOSTS[index]).contains(&other.sizes[index])));
            fitting += usize::from(other.night().is_ok());
        }
        assert!(fitting > 100, "{fitting}");
        assert_eq!(given(Sizes::LARGEST), MOSTS);
    }
}
