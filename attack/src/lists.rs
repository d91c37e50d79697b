//! Cue lists: the lent table of the card's lists, held to the second program's lists.
//!
//! The second program keeps no table, so its lists are read from the lent one: "A list's length
//! is the number of its records before the first zero one, in any table" (docs/DECISIONS.md).

use second::cues::{CueLists, MOST_CUES};
use second::random::Random;
use second::records::RECORD;
use second::refusal::{number, Refusal};
use second::sizes::{Sizes, MOST_LANES, MOST_RACKS};

use crate::card::{self, Code};
use crate::judge::{reply_difference, Difference, Fenced, Verdict};
use crate::tables::{difference_in, wide};

/// Bytes of one code in the lists.
const CODE: usize = 2;

/// Lent lists, with racks and lanes as they are given.
#[derive(Clone, Debug)]
pub struct Lists {
    pub given: [usize; 2],
    pub table: Vec<u8>,
}

impl Lists {
    /// Lists of any lengths, often full or one short of it; in one of eight the table is any bytes.
    pub fn made(sizes: Sizes, random: &mut Random) -> Lists {
        let given = [sizes.racks(), sizes.lanes()];
        let mut table = Vec::with_capacity(CODE * MOST_CUES * given[0] * given[1]);
        let any_bytes = random.one_in(8);
        for _ in 0..given[0] * given[1] {
            let length = match random.below(4) {
                0 => 0,
                1 => MOST_CUES,
                2 => MOST_CUES - 1,
                _ => random.between(0, MOST_CUES),
            };
            for place in 0..MOST_CUES {
                let code = match (any_bytes, place < length) {
                    (true, _) => random.below(3) << random.below(15),
                    (false, true) => random.between(1, 65_535),
                    (false, false) => 0,
                };
                table.extend((code as u16).to_le_bytes());
            }
        }
        Lists { given, table }
    }

    /// Sizes out of range, over these lists or over none, or a table of another length.
    pub fn spoiled(&self, random: &mut Random) -> Lists {
        let mut spoiled = self.clone();
        let index = random.below(2);
        let most = [MOST_RACKS, MOST_LANES][index];
        let right = self.given[index];
        match random.below(4) {
            0 => {
                let sizes = [255, right + 256, right + (1 << 32), usize::MAX];
                spoiled.given[index] = random.pick(&sizes).unwrap_or(0);
            }
            1 => {
                spoiled.given[index] = random.pick(&[0, most + 1]).unwrap_or(0);
                let [n, k] = spoiled.given;
                spoiled.table.resize(CODE * MOST_CUES * n * k, 0);
            }
            2 => spoiled.table.push(0),
            _ => {
                spoiled.table.pop();
            }
        }
        spoiled
    }

    /// The second program's lists, or the refusal of sizes or length.
    fn second(&self) -> Result<CueLists, Refusal> {
        let [n, k] = wide(self.given);
        // Lists do not depend on the rounds.
        let sizes = Sizes::new(n, k, 1)?;
        if self.table.len() != CODE * MOST_CUES * sizes.racks() * sizes.lanes() {
            return Err(Refusal::Size);
        }
        let mut lists = CueLists::new(sizes);
        for (index, list) in self.table.chunks_exact(CODE * MOST_CUES).enumerate() {
            let (rack, lane) = (index / sizes.lanes(), index % sizes.lanes());
            for code in list.chunks_exact(CODE).take_while(|code| **code != [0, 0]) {
                lists.add(&[rack as u8, lane as u8, code[0], code[1]])?;
            }
        }
        Ok(lists)
    }

    /// The length of a list: how many cues of it have a code.
    fn length(lists: &CueLists, rack: u8, lane: usize) -> usize {
        (1..=MOST_CUES as u8)
            .take_while(|cue| lists.code(rack, lane, *cue) != 0)
            .count()
    }

    /// The second program's reply to a cue record, and the table afterwards.
    fn second_add(&self, record: &[u8]) -> (u8, Vec<u8>) {
        let mut table = self.table.clone();
        let mut lists = match self.second() {
            Ok(lists) => lists,
            Err(refusal) => return (refusal.number(), table),
        };
        let reply = lists.add(record);
        if let ([rack, lane, low, high], Ok(())) = (record, &reply) {
            let index = usize::from(*rack) * self.given[1] + usize::from(*lane);
            let place = Lists::length(&lists, *rack, (*lane).into()) - 1;
            let start = CODE * (MOST_CUES * index + place);
            table[start..start + CODE].copy_from_slice(&[*low, *high]);
        }
        (number(&reply), table)
    }

    /// One cue record: the same reply and every byte the same, and a taken one stays in.
    pub fn add(&mut self, record: &[u8]) -> Verdict {
        let (second, after) = self.second_add(record);
        let mut table = Fenced::new(&self.table);
        let fenced_record = Fenced::new(record);
        let card = card::add_cue(self.given, table.bytes_mut(), fenced_record.bytes());
        let difference = reply_difference(card, second)
            .or_else(|| difference_in("lists", table.bytes(), &after))
            .or_else(|| table.difference())
            .or_else(|| difference_in("record", fenced_record.bytes(), record));
        self.table = after;
        match difference {
            None => Ok(second),
            Some(what) => Err(self.difference("night_add_cue", format!("record {record:?}"), what)),
        }
    }

    /// The query for the code of a cue: rack, lane and number.
    pub fn code(&self, query: [usize; 3]) -> Verdict {
        let [rack, lane, cue] = query;
        let second = match self.second() {
            Err(refusal) => Code {
                number: refusal.number(),
                code: 0,
            },
            Ok(_) if rack >= self.given[0] || lane >= self.given[1] => Code {
                number: Refusal::NotThere.number(),
                code: 0,
            },
            // "a number past its list is an idle cue, code 0"
            Ok(lists) => Code {
                number: 0,
                code: u8::try_from(cue).map_or(0, |cue| lists.code(rack as u8, lane, cue)),
            },
        };
        let table = Fenced::new(&self.table);
        let card = card::code_of(self.given, table.bytes(), query);
        let difference = (card != second)
            .then(|| format!("reply: card {card:?}, second {second:?}"))
            .or_else(|| difference_in("lists", table.bytes(), &self.table))
            .or_else(|| table.difference());
        match difference {
            None => Ok(second.number),
            Some(what) => {
                let given = format!("rack, lane, cue {query:?}");
                Err(self.difference("night_code_of", given, what))
            }
        }
    }

    fn difference(&self, call: &'static str, given: String, what: String) -> Box<Difference> {
        Box::new(Difference {
            call,
            given: format!("racks and lanes {:?}, {given}", self.given),
            what,
            line: None,
        })
    }

    /// A cue record for these lists, mostly right, of any length to 8.
    pub fn record(&self, random: &mut Random) -> Vec<u8> {
        let [n, k] = self.given.map(|size| size.min(8));
        let mut record = [random.below(n), random.below(k), 0, 0].map(|byte| byte as u8);
        let codes = [1, 255, 256, 65_535, random.between(1, 65_535) as u16];
        let code = random.pick(&codes).unwrap_or(1);
        record[2..].copy_from_slice(&code.to_le_bytes());
        match random.below(12) {
            0 => record[0] = random.pick(&[n, 8, 255]).unwrap_or(n) as u8,
            1 => record[1] = random.pick(&[k, 4, 255]).unwrap_or(k) as u8,
            2 => record[2..].fill(0),
            3 => {
                let length = random.between(0, 2 * RECORD);
                let bytes = record.into_iter().chain(std::iter::repeat(0));
                return bytes.take(length).collect();
            }
            _ => {}
        }
        record.to_vec()
    }

    /// A rack, a lane and the number of a cue, some not there.
    pub fn query(&self, random: &mut Random) -> [usize; 3] {
        let [n, k] = self.given;
        let mut query = [
            random.below(n),
            random.below(k),
            random.between(0, MOST_CUES + 1),
        ];
        if random.one_in(4) {
            let index = random.below(3);
            let past = [n, k, MOST_CUES][index];
            let others = [past, past + 1, 256, query[index] + (1 << 32), usize::MAX];
            query[index] = random.pick(&others).unwrap_or(past);
        }
        query
    }
}

#[cfg(test)]
mod tests {
    use super::*;

    #[test]
    fn a_taken_record_is_one_code_more() {
        let mut lists = Lists {
            given: [2, 2],
            table: vec![0; 512],
        };
        let (reply, table) = lists.second_add(&[1, 0, 7, 1]);
        let mut expected = lists.table.clone();
        expected[256..258].copy_from_slice(&[7, 1]);
        assert_eq!((reply, &table), (0, &expected));
        lists.table = table;
        let (reply, table) = lists.second_add(&[1, 0, 0, 2]);
        expected[258..260].copy_from_slice(&[0, 2]);
        assert_eq!((reply, &table), (0, &expected));
        assert_eq!(lists.second_add(&[2, 0, 7, 1]).0, 10);
        lists.table.pop();
        assert_eq!(lists.second_add(&[1, 0, 7, 1]).0, 1);
    }

    #[test]
    fn bytes_behind_a_zero_record_stay() {
        let lists = Lists {
            given: [1, 1],
            table: [[9, 9], [0, 0]].concat().repeat(32),
        };
        let (reply, table) = lists.second_add(&[0, 0, 7, 1]);
        let mut expected = lists.table.clone();
        expected[2..4].copy_from_slice(&[7, 1]);
        assert_eq!((reply, table), (0, expected));
    }
}
