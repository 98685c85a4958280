//! The listed instruments of a channel.

use std::collections::{BTreeMap, BTreeSet};

/// The most instruments of a channel.
pub const MOST_INSTRUMENTS: usize = 512;

/// What an instrument is.
#[derive(Clone, Copy, PartialEq, Eq, Debug)]
pub enum Kind {
    /// An instrument of one expiry whose direct book has so many levels, 1 to 10.
    Outright { depth: u8 },
    /// A calendar spread: who buys it buys the first leg and sells the second; both are ids.
    Calendar { bought: u32, sold: u32 },
}

#[derive(Clone, PartialEq, Eq, Debug)]
pub struct Instrument {
    pub id: u32,
    /// 1 to 20 visible characters.
    pub name: Vec<u8>,
    pub kind: Kind,
}

/// Why a list of instruments, or a capture, is refused.
#[derive(Clone, Copy, PartialEq, Eq, Debug)]
#[repr(u8)]
pub enum ListRefusal {
    DuplicateId = 31,
    UnknownLeg,
    TooMany,
    None,
    InstrumentLate,
}

impl ListRefusal {
    /// Gives the number and the name that are told.
    pub fn told(self) -> String {
        format!("{} {self:?}", self as u8)
    }
}

/// The instruments that were listed so far, in their order.
#[derive(Default, Clone)]
pub struct Listing {
    list: Vec<Instrument>,
    /// All ids, and whether they are outrights'.
    ids: BTreeMap<u32, bool>,
    names: BTreeSet<Vec<u8>>,
}

impl Listing {
    pub fn instruments(&self) -> &[Instrument] {
        &self.list
    }

    pub fn is_empty(&self) -> bool {
        self.list.is_empty()
    }

    /// Lists one more, or tells why it can't be listed.
    pub fn add(&mut self, instrument: Instrument) -> Result<(), ListRefusal> {
        if self.list.len() == MOST_INSTRUMENTS {
            return Err(ListRefusal::TooMany);
        }
        if self.ids.contains_key(&instrument.id) || self.names.contains(&instrument.name) {
            return Err(ListRefusal::DuplicateId);
        }
        if let Kind::Calendar { bought, sold } = instrument.kind
            && (bought == sold || !self.has_outright(bought) || !self.has_outright(sold))
        {
            return Err(ListRefusal::UnknownLeg);
        }
        self.ids.insert(instrument.id, matches!(instrument.kind, Kind::Outright { .. }));
        self.names.insert(instrument.name.clone());
        self.list.push(instrument);
        Ok(())
    }

    fn has_outright(&self, id: u32) -> bool {
        self.ids.get(&id).copied().unwrap_or(false)
    }
}

/// Reads a decimal number from 1 to `most`, without sign or leading zero.
pub fn number_of(text: &[u8], most: u32) -> Option<u32> {
    let is_plain = text.len() <= 10 && text.iter().all(u8::is_ascii_digit);
    if !is_plain || matches!(text.first(), None | Some(b'0')) {
        return None;
    }
    let number = text.iter().fold(0u64, |number, digit| number * 10 + u64::from(digit - b'0'));
    u32::try_from(number).ok().filter(|number| *number <= most)
}

/// Reads the fields behind the `I` of an instrument's line.
pub fn instrument_of(fields: &[&[u8]]) -> Option<Instrument> {
    const MOST_ID: u32 = i32::MAX as u32;
    let (&[id, name], rest) = fields.split_first_chunk()?;
    let id = number_of(id, MOST_ID)?;
    if !(1..=20).contains(&name.len()) || !name.iter().all(|byte| (33..=126).contains(byte)) {
        return None;
    }
    let kind = match *rest {
        [b"O"] => Kind::Outright { depth: 10 },
        [b"O", depth] => Kind::Outright { depth: number_of(depth, 10)? as u8 },
        [b"C", bought, sold] => Kind::Calendar { bought: number_of(bought, MOST_ID)?, sold: number_of(sold, MOST_ID)? },
        _ => return None,
    };
    Some(Instrument { id, name: name.to_vec(), kind })
}
