//! "They are tested in this order. A refusal returns its number and zeros;
//! tables, states and lists stay as before."

/// The ten refusals; each one's number is that of the table in document 01.
#[derive(Clone, Copy, Debug, PartialEq, Eq)]
pub enum Refusal {
    Size = 1,
    NotSound,
    Record,
    Finished,
    LaneOrSource,
    NoOffer,
    OtherSource,
    LogTooLong,
    NotThere,
    Cue,
}

impl Refusal {
    pub fn number(self) -> u8 {
        self as u8
    }
}

/// The number of a reply: 0 when nothing was refused.
pub fn number<T>(reply: &Result<T, Refusal>) -> u8 {
    reply.as_ref().err().map_or(0, |refusal| refusal.number())
}
