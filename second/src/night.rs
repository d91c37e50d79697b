//! "Cell table: exactly 24·R·k·n bytes. It has three sections (offers, first cells,
//! second cells) of 8-byte records, no header; record ((round - 1)·k + lane)·n + rack."
//!
//! "Decision table: R·k bytes, the winning source by round and lane, 255 if none."

use crate::cell::{Cell, Section};
use crate::logs::{log_of, log_start, Entry};
use crate::rack::{Rack, Racks};
use crate::refusal::Refusal;
use crate::sizes::{Sizes, CELL_RECORD, LOG_RECORD, MOST_RACKS};

/// The decision of a lane that is not decided.
pub const NO_SOURCE: u8 = 255;

/// Tables of the exact lengths for their sizes, with the rack states; their bytes may be any.
#[derive(Clone, Debug, PartialEq, Eq)]
pub struct Night {
    sizes: Sizes,
    cells: Vec<u8>,
    logs: Vec<u8>,
    decisions: Vec<u8>,
    pub(crate) racks: Racks,
}

/// "Fresh: all cells and logs zero, all decisions 255" and the rack states handed back.
pub fn fresh(
    sizes: [u64; 3],
    cells: &mut [u8],
    logs: &mut [u8],
    decisions: &mut [u8],
) -> Result<Racks, Refusal> {
    let sizes = exact_sizes(sizes, cells, logs, decisions)?;
    cells.fill(0);
    logs.fill(0);
    decisions.fill(NO_SOURCE);
    Ok(fresh_racks(sizes))
}

/// Refusal 1: "n, k or R outside its range, or a lent length not exact".
fn exact_sizes(
    sizes: [u64; 3],
    cells: &[u8],
    logs: &[u8],
    decisions: &[u8],
) -> Result<Sizes, Refusal> {
    let [racks, lanes, rounds] = sizes;
    let sizes = Sizes::new(racks, lanes, rounds)?;
    let exact = cells.len() == sizes.cell_table_length()
        && logs.len() == sizes.log_table_length()
        && decisions.len() == sizes.decision_table_length();
    if exact {
        Ok(sizes)
    } else {
        Err(Refusal::Size)
    }
}

fn fresh_racks(sizes: Sizes) -> Racks {
    let mut racks = [Rack::default(); MOST_RACKS];
    for (index, rack) in racks.iter_mut().enumerate().take(sizes.racks()) {
        *rack = Rack::fresh(index, sizes);
    }
    racks
}

impl Night {
    pub fn fresh(sizes: Sizes) -> Night {
        Night {
            sizes,
            cells: vec![0; sizes.cell_table_length()],
            logs: vec![0; sizes.log_table_length()],
            decisions: vec![NO_SOURCE; sizes.decision_table_length()],
            racks: fresh_racks(sizes),
        }
    }

    /// A night over given tables, if the sizes are in range and the lengths exact.
    pub fn lent(
        sizes: [u64; 3],
        cells: Vec<u8>,
        logs: Vec<u8>,
        decisions: Vec<u8>,
        racks: Racks,
    ) -> Result<Night, Refusal> {
        let sizes = exact_sizes(sizes, &cells, &logs, &decisions)?;
        Ok(Night {
            sizes,
            cells,
            logs,
            decisions,
            racks,
        })
    }

    pub fn sizes(&self) -> Sizes {
        self.sizes
    }

    pub fn cells(&self) -> &[u8] {
        &self.cells
    }

    pub fn logs(&self) -> &[u8] {
        &self.logs
    }

    pub fn decisions(&self) -> &[u8] {
        &self.decisions
    }

    pub fn racks(&self) -> &Racks {
        &self.racks
    }

    /// The bytes of one section of the cell table.
    pub fn section(&self, section: Section) -> &[u8] {
        let length = self.sizes.section_length();
        let start = section as usize * length;
        &self.cells[start..start + length]
    }

    pub fn cell(&self, section: Section, round: usize, lane: usize, rack: usize) -> Cell {
        let start = self.cell_start(section, round, lane, rack);
        let mut record = [0; CELL_RECORD];
        record.copy_from_slice(&self.cells[start..start + CELL_RECORD]);
        Cell::from_record(record)
    }

    pub(crate) fn write_cell(
        &mut self,
        section: Section,
        round: usize,
        lane: usize,
        rack: usize,
        cell: Cell,
    ) {
        let start = self.cell_start(section, round, lane, rack);
        self.cells[start..start + CELL_RECORD].copy_from_slice(&cell.to_record());
    }

    fn cell_start(&self, section: Section, round: usize, lane: usize, rack: usize) -> usize {
        let record = ((round - 1) * self.sizes.lanes() + lane) * self.sizes.racks() + rack;
        section as usize * self.sizes.section_length() + record * CELL_RECORD
    }

    /// The winning source of a round and lane, if it is decided.
    pub fn decision(&self, round: usize, lane: usize) -> Option<usize> {
        match self.decisions[(round - 1) * self.sizes.lanes() + lane] {
            NO_SOURCE => None,
            source => Some(usize::from(source)),
        }
    }

    pub(crate) fn decide(&mut self, round: usize, lane: usize, source: u8) {
        self.decisions[(round - 1) * self.sizes.lanes() + lane] = source;
    }

    /// All R records of the log of a rack and lane.
    pub fn log(&self, rack: usize, lane: usize) -> &[u8] {
        log_of(&self.logs, self.sizes, rack, lane)
    }

    pub(crate) fn write_entry(&mut self, rack: usize, lane: usize, place: usize, entry: Entry) {
        let start = log_start(self.sizes, rack, lane) + place * LOG_RECORD;
        self.logs[start..start + LOG_RECORD].copy_from_slice(&[entry.issuer, entry.number]);
    }
}
