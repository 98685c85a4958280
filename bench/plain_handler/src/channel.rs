//! The file of a channel: its instruments, and the addresses of its feeds.

use crate::instruments::{ListRefusal, Listing, instrument_of, number_of};
use crate::receiver::Feed;
use std::net::Ipv4Addr;

/// A group and a port of one feed.
#[derive(Clone, Copy, PartialEq, Eq, Debug)]
pub struct Address {
    pub group: u32,
    pub port: u16,
}

/// The addresses of the feeds.
#[derive(Clone, Default, Debug)]
pub struct FeedAddresses {
    list: Vec<(Address, Feed)>,
}

impl FeedAddresses {
    /// Gives the feed that is sent to an address.
    #[inline(always)]
    pub fn feed_at(&self, address: Address) -> Option<Feed> {
        self.list.iter().find(|(other, _)| *other == address).map(|(_, feed)| *feed)
    }

    /// Gives the feed that is sent to a group, if there is one, and whether there are several.
    pub fn feeds_of_group(&self, group: u32) -> (Option<Feed>, bool) {
        let mut feeds = self.list.iter().filter(|(address, _)| address.group == group).map(|(_, feed)| *feed);
        let first = feeds.next();
        (first, feeds.any(|feed| Some(feed) != first))
    }
}

/// Why a channel's file is refused, and at which line.
#[derive(Clone, Copy, PartialEq, Eq, Debug)]
pub enum ChannelFault {
    Form(usize),
    AddressTwice(usize),
    Listed(usize, ListRefusal),
    NoAddress,
    NoInstrument,
}

impl ChannelFault {
    /// Gives what is told.
    pub fn told(self) -> String {
        match self {
            ChannelFault::Form(line) => format!("channel line {line}: 61 ChannelForm"),
            ChannelFault::AddressTwice(line) => format!("channel line {line}: 62 AddressTwice"),
            ChannelFault::Listed(line, why) => format!("channel line {line}: {}", why.told()),
            ChannelFault::NoAddress => "channel: 63 NoAddress".to_owned(),
            ChannelFault::NoInstrument => format!("channel: {}", ListRefusal::None.told()),
        }
    }
}

/// Reads the text of a channel's file.
pub fn read_channel(text: &[u8]) -> Result<(Listing, FeedAddresses), ChannelFault> {
    let mut listing = Listing::default();
    let mut addresses = FeedAddresses::default();
    for (place, line) in text.split(|&byte| byte == b'\n').enumerate() {
        let number = place + 1;
        let line = line.strip_suffix(b"\r").unwrap_or(line);
        if line.is_empty() || line.starts_with(b"#") {
            continue;
        }
        let fields: Vec<&[u8]> = line.split(|&byte| byte == b' ').collect();
        let form = ChannelFault::Form(number);
        match *fields {
            [b"I", ref rest @ ..] => {
                let instrument = instrument_of(rest).ok_or(form)?;
                listing.add(instrument).map_err(|why| ChannelFault::Listed(number, why))?;
            }
            [b"F", feed, group, port] => {
                let (address, feed) = address_of(feed, group, port).ok_or(form)?;
                if addresses.feed_at(address).is_some() {
                    return Err(ChannelFault::AddressTwice(number));
                }
                addresses.list.push((address, feed));
            }
            _ => return Err(form),
        }
    }
    if listing.is_empty() {
        return Err(ChannelFault::NoInstrument);
    }
    if addresses.list.is_empty() {
        return Err(ChannelFault::NoAddress);
    }
    Ok((listing, addresses))
}

fn address_of(feed: &[u8], group: &[u8], port: &[u8]) -> Option<(Address, Feed)> {
    let feed = match *feed {
        [letter] => Feed::of_letter(letter)?,
        _ => return None,
    };
    // The standard library refuses leading zeros too.
    let group: Ipv4Addr = std::str::from_utf8(group).ok()?.parse().ok()?;
    let port = number_of(port, 65_535)? as u16;
    Some((Address { group: group.into(), port }, feed))
}

#[cfg(test)]
mod tests {
    use super::*;

    #[test]
    fn a_channel_is_read_or_refused_at_its_line() {
        let good = "# a channel\nI 1 NEAR O\n\nF A 224.0.31.1 14310\nF S 224.0.31.43 14310\r\nI 2 FAR O 5";
        let (listing, addresses) = read_channel(good.as_bytes()).unwrap();
        assert_eq!(listing.instruments().len(), 2);
        let at = |group: [u8; 4], port| addresses.feed_at(Address { group: u32::from_be_bytes(group), port });
        assert_eq!(at([224, 0, 31, 1], 14310), Some(Feed::A));
        assert_eq!(at([224, 0, 31, 43], 14310), Some(Feed::S));
        assert_eq!(at([224, 0, 31, 1], 14311), None);
        for (text, wanted) in [
            ("I 1 NEAR O\nF A 224.0.31.01 1", ChannelFault::Form(2)),
            ("I 1 NEAR O\nF A 224.0.31.1 0", ChannelFault::Form(2)),
            ("I 1 NEAR O\nF A 224.0.31.1 65536", ChannelFault::Form(2)),
            ("I 1 NEAR O\nF D 224.0.31.1 1", ChannelFault::Form(2)),
            ("F A 224.0.31.1 1\nF B 224.0.31.1 1\nI 1 NEAR O", ChannelFault::AddressTwice(2)),
            ("I 1 NEAR O\nI 1 FAR O", ChannelFault::Listed(2, ListRefusal::DuplicateId)),
            ("I 1 NEAR O", ChannelFault::NoAddress),
            ("", ChannelFault::NoInstrument),
        ] {
            assert_eq!(read_channel(text.as_bytes()).map(|_| ()), Err(wanted), "{text}");
        }
    }
}
