//! What a call can't do.

use std::fmt;

/// Why a datagram is refused; it counts as one that never came.
#[derive(Clone, Copy, Debug, PartialEq, Eq)]
#[repr(u8)]
pub enum Refusal {
    TooShort = 1,
    NumberZero,
    SizeCut,
    SizeSmall,
    SizePast,
    Schema,
    BlockShort,
    BlockPast,
    GroupCut,
    GroupShort,
    GroupPast,
    Action,
    EntryType,
    Level,
    Price,
    Size,
    ChannelReset,
    SnapshotLevels,
}

const REFUSALS: [Refusal; 18] = [
    Refusal::TooShort,
    Refusal::NumberZero,
    Refusal::SizeCut,
    Refusal::SizeSmall,
    Refusal::SizePast,
    Refusal::Schema,
    Refusal::BlockShort,
    Refusal::BlockPast,
    Refusal::GroupCut,
    Refusal::GroupShort,
    Refusal::GroupPast,
    Refusal::Action,
    Refusal::EntryType,
    Refusal::Level,
    Refusal::Price,
    Refusal::Size,
    Refusal::ChannelReset,
    Refusal::SnapshotLevels,
];

/// What a call can't do. It is printed with the program's number and word.
#[derive(Clone, Copy, Debug, PartialEq, Eq)]
pub enum Error {
    /// The datagram is refused.
    Refused(Refusal),
    /// The line of this number, from 1, is no `I` line.
    LineForm { place: u64 },
    /// The datagram has more than 2,048 bytes.
    TooLong,
    /// The instrument at this place has the id or the name of one before it. A place is a line, from 1, or an index.
    DuplicateId { place: u64 },
    /// The instrument at this place has a leg that is no outright listed before it.
    UnknownLeg { place: u64 },
    /// The instrument at this place is number 513.
    TooMany { place: u64 },
    /// There is no instrument.
    NoneListed,
    /// Memory ran out, now or in an earlier call.
    Memory,
    /// An argument is out of its range: a slot or an option, or the instrument at this place.
    OutOfRange { place: Option<u64> },
}

impl Error {
    /// The error of a status that isn't 0, of a call that told this place.
    pub(crate) fn of(status: u32, place: Option<u64>) -> Error {
        let at = place.unwrap_or(0);
        match status {
            1..=18 => Error::Refused(REFUSALS[status as usize - 1]),
            21 => Error::LineForm { place: at },
            23 => Error::TooLong,
            31 => Error::DuplicateId { place: at },
            32 => Error::UnknownLeg { place: at },
            33 => Error::TooMany { place: at },
            34 => Error::NoneListed,
            41 => Error::Memory,
            83 => Error::OutOfRange { place },
            _ => unreachable!("status {status}"),
        }
    }

    /// The status in C, of 1 to 41 the program's number.
    pub fn number(&self) -> u32 {
        match self {
            Error::Refused(refusal) => *refusal as u32,
            Error::LineForm { .. } => 21,
            Error::TooLong => 23,
            Error::DuplicateId { .. } => 31,
            Error::UnknownLeg { .. } => 32,
            Error::TooMany { .. } => 33,
            Error::NoneListed => 34,
            Error::Memory => 41,
            Error::OutOfRange { .. } => 83,
        }
    }
}

impl fmt::Display for Error {
    fn fmt(&self, f: &mut fmt::Formatter<'_>) -> fmt::Result {
        write!(f, "{} ", self.number())?;
        match self {
            Error::Refused(refusal) => write!(f, "{refusal:?}"),
            Error::LineForm { .. } => f.write_str("LineForm"),
            Error::TooLong => f.write_str("TooLong"),
            Error::DuplicateId { .. } => f.write_str("DuplicateId"),
            Error::UnknownLeg { .. } => f.write_str("UnknownLeg"),
            Error::TooMany { .. } => f.write_str("TooMany"),
            Error::NoneListed => f.write_str("None"),
            Error::Memory => f.write_str("Memory"),
            Error::OutOfRange { .. } => f.write_str("OutOfRange"),
        }
    }
}

impl std::error::Error for Error {}
