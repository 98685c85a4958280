//! Why a datagram is refused.

/// Why a datagram is refused: the first fault in reading order.
#[derive(Clone, Copy, PartialEq, Eq, Debug)]
#[repr(u8)]
pub enum Refusal {
    TooShort = 1,
    NumberZero,
    SizeCut,
    SizeSmall,
    SizePast,
    Schema,
    BlockShort,
    BlockPast,
    GroupCut,
    GroupShort,
    GroupPast,
    Action,
    EntryType,
    Level,
    Price,
    Size,
    ChannelReset,
    SnapshotLevels,
}

impl Refusal {
    /// Gives the number that an `X` line shows, 1 to 18.
    pub fn number(self) -> u8 {
        self as u8
    }
}
