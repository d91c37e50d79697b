//! "A reader walks the bytes with its own place in them; a last piece under 4 bytes is
//! given out once as a short record."

use std::io::{self, BufReader, ErrorKind, Read};

/// Bytes of a turn record and of a cue record.
pub const RECORD: usize = 4;

/// Gives out the records of a file that may have any length, reading it in pieces.
pub struct Records<Source> {
    source: BufReader<Source>,
    record: [u8; RECORD],
}

impl<Source: Read> Records<Source> {
    pub fn new(source: BufReader<Source>) -> Records<Source> {
        Records {
            source,
            record: [0; RECORD],
        }
    }

    /// The next record: four bytes, or fewer where the file ends.
    pub fn next_record(&mut self) -> io::Result<Option<&[u8]>> {
        let mut length = 0;
        while length < RECORD {
            match self.source.read(&mut self.record[length..]) {
                Ok(0) => break,
                Ok(count) => length += count,
                Err(error) if error.kind() == ErrorKind::Interrupted => {}
                Err(error) => return Err(error),
            }
        }
        Ok((length > 0).then_some(&self.record[..length]))
    }
}
