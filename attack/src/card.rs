//! The card's C interface, as `include/night.h` has it, behind thin safe calls over byte slices.

use second::rack::RACKS_LENGTH;

/// The bytes of the eight racks, in the order of the second program's.
pub type RackBytes = [u8; RACKS_LENGTH];

/// Racks, lanes and rounds as they are given, in range or not.
pub type GivenSizes = [usize; 3];

/// The three tables lent to a call.
pub struct Lent<'a> {
    pub cells: &'a mut [u8],
    pub logs: &'a mut [u8],
    pub decisions: &'a mut [u8],
}

/// All fields of the eight racks are bytes, so a struct of as many bytes is passed alike.
#[repr(C)]
#[derive(Clone, Copy)]
struct Racks {
    bytes: RackBytes,
}

#[repr(C)]
struct Reply {
    number: u8,
    racks: Racks,
}

/// The reply to a log query.
#[repr(C)]
#[derive(Clone, Copy, Debug, PartialEq, Eq)]
pub struct Entry {
    pub number: u8,
    pub issuer: u8,
    pub cue: u8,
}

/// The first log is handed back.
pub const FIRST: u8 = 0;
/// The second log is handed back.
pub const SECOND: u8 = 1;
/// An empty part of the first log is handed back, since they do not agree.
pub const NEITHER: u8 = 2;

/// Which of two logs is handed back, and its length.
#[repr(C)]
#[derive(Clone, Copy, Debug, PartialEq, Eq)]
pub struct Longer {
    pub which: u8,
    pub length: usize,
}

/// The reply to the query for a cue's code.
#[repr(C)]
#[derive(Clone, Copy, Debug, PartialEq, Eq)]
pub struct Code {
    pub number: u8,
    pub code: u16,
}

extern "C" {
    fn night_fresh(
        n: usize,
        k: usize,
        rounds: usize,
        cells: *mut u8,
        cells_length: usize,
        logs: *mut u8,
        logs_length: usize,
        decisions: *mut u8,
        decisions_length: usize,
    ) -> Reply;
    fn night_sound(
        n: usize,
        k: usize,
        rounds: usize,
        cells: *const u8,
        cells_length: usize,
        logs: *const u8,
        logs_length: usize,
        decisions: *const u8,
        decisions_length: usize,
        racks: Racks,
    ) -> u8;
    fn night_turn(
        n: usize,
        k: usize,
        rounds: usize,
        cells: *mut u8,
        cells_length: usize,
        logs: *mut u8,
        logs_length: usize,
        decisions: *mut u8,
        decisions_length: usize,
        racks: Racks,
        record: *const u8,
        record_length: usize,
    ) -> Reply;
    fn night_log_entry(
        n: usize,
        k: usize,
        rounds: usize,
        logs: *const u8,
        logs_length: usize,
        rack: usize,
        lane: usize,
        place: usize,
    ) -> Entry;
    fn night_agree(a: *const u8, a_length: usize, b: *const u8, b_length: usize) -> u8;
    fn night_longer(a: *const u8, a_length: usize, b: *const u8, b_length: usize) -> Longer;
    fn night_add_cue(
        n: usize,
        k: usize,
        lists: *mut u8,
        lists_length: usize,
        record: *const u8,
        record_length: usize,
    ) -> u8;
    fn night_code_of(
        n: usize,
        k: usize,
        lists: *const u8,
        lists_length: usize,
        rack: usize,
        lane: usize,
        cue: usize,
    ) -> Code;
}

/// Fills the tables and hands back the racks with 0, or zeros with a refusal's number.
pub fn fresh([n, k, rounds]: GivenSizes, tables: &mut Lent) -> (u8, RackBytes) {
    let Lent {
        cells,
        logs,
        decisions,
    } = tables;
    // Each pointer comes with the length of its own slice, and the slices do not overlap.
    let reply = unsafe {
        night_fresh(
            n,
            k,
            rounds,
            cells.as_mut_ptr(),
            cells.len(),
            logs.as_mut_ptr(),
            logs.len(),
            decisions.as_mut_ptr(),
            decisions.len(),
        )
    };
    (reply.number, reply.racks.bytes)
}

/// The soundness test: 0, or 1 for sizes and lengths, or 2.
pub fn sound([n, k, rounds]: GivenSizes, tables: &Lent, racks: &RackBytes) -> u8 {
    let Lent {
        cells,
        logs,
        decisions,
    } = tables;
    // Each pointer comes with the length of its own slice.
    unsafe {
        night_sound(
            n,
            k,
            rounds,
            cells.as_ptr(),
            cells.len(),
            logs.as_ptr(),
            logs.len(),
            decisions.as_ptr(),
            decisions.len(),
            Racks { bytes: *racks },
        )
    }
}

/// One turn; the racks that are handed back take the place of those given.
pub fn turn(
    [n, k, rounds]: GivenSizes,
    tables: &mut Lent,
    racks: &mut RackBytes,
    record: &[u8],
) -> u8 {
    let Lent {
        cells,
        logs,
        decisions,
    } = tables;
    // Each pointer comes with the length of its own slice, and the slices do not overlap.
    let reply = unsafe {
        night_turn(
            n,
            k,
            rounds,
            cells.as_mut_ptr(),
            cells.len(),
            logs.as_mut_ptr(),
            logs.len(),
            decisions.as_mut_ptr(),
            decisions.len(),
            Racks { bytes: *racks },
            record.as_ptr(),
            record.len(),
        )
    };
    *racks = reply.racks.bytes;
    reply.number
}

/// The log query.
pub fn log_entry(
    [n, k, rounds]: GivenSizes,
    logs: &[u8],
    [rack, lane, place]: [usize; 3],
) -> Entry {
    // The pointer comes with the length of its slice.
    unsafe { night_log_entry(n, k, rounds, logs.as_ptr(), logs.len(), rack, lane, place) }
}

/// Whether two logs agree: 1 or 0.
pub fn agree(a: &[u8], b: &[u8]) -> u8 {
    // Each pointer comes with the length of its own slice.
    unsafe { night_agree(a.as_ptr(), a.len(), b.as_ptr(), b.len()) }
}

/// The longer of two logs.
pub fn longer(a: &[u8], b: &[u8]) -> Longer {
    // Each pointer comes with the length of its own slice.
    unsafe { night_longer(a.as_ptr(), a.len(), b.as_ptr(), b.len()) }
}

/// Adds a cue record to the lists: 0 or a refusal's number.
pub fn add_cue([n, k]: [usize; 2], lists: &mut [u8], record: &[u8]) -> u8 {
    // Each pointer comes with the length of its own slice, and the slices do not overlap.
    unsafe {
        night_add_cue(
            n,
            k,
            lists.as_mut_ptr(),
            lists.len(),
            record.as_ptr(),
            record.len(),
        )
    }
}

/// The code of a cue.
pub fn code_of([n, k]: [usize; 2], lists: &[u8], [rack, lane, cue]: [usize; 3]) -> Code {
    // The pointer comes with the length of its slice.
    unsafe { night_code_of(n, k, lists.as_ptr(), lists.len(), rack, lane, cue) }
}
