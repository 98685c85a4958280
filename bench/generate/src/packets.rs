//! The packets of the complete feed.

use crate::datagram::{Datagram, Entry};
use crate::market::Market;

/// The sending time of packet 0, in nanoseconds since 1970.
const FIRST_TIME: u64 = 1_750_000_000_000_000_000;

/// How far apart packets are sent, in nanoseconds.
pub const PACKET_TIME: u64 = 25_000;

/// How often a message has one to six entries.
const ENTRIES: [u32; 6] = [36, 29, 15, 10, 6, 4];

/// How many entries a message has while the market opens.
const OPENING_ENTRIES: usize = 6;

/// Gives the sending time of a packet in nanoseconds since 1970.
pub fn time_of(packet: u32) -> u64 {
    FIRST_TIME + u64::from(packet) * PACKET_TIME
}

/// Makes packet after packet.
pub struct Packets {
    pub market: Market,
    /// What is left of the market's opening, the next one last.
    opening: Vec<(usize, usize)>,
    /// How many messages the event at hand still has.
    messages_left: usize,
    /// Which securities the event at hand is about.
    securities: Vec<usize>,
}

impl Packets {
    pub fn new(market: Market) -> Packets {
        let opening = market.opening();
        Packets { market, opening, messages_left: 0, securities: Vec::new() }
    }

    /// Makes the packet of a number.
    pub fn packet(&mut self, number: u32) -> Vec<u8> {
        const HOW_MANY: [u32; 3] = [60, 27, 13];
        let time = time_of(number);
        let mut datagram = Datagram::new(number, time);
        if self.market.is_hub() {
            // An event of one message, and nothing else.
            datagram.put_book(time, true, &self.entries_of_hub(), false);
            return datagram.into_bytes();
        }
        for _ in 0..=self.market.random().pick(&HOW_MANY) {
            self.put_message(&mut datagram, time);
        }
        datagram.into_bytes()
    }

    fn put_message(&mut self, datagram: &mut Datagram, time: u64) {
        const TRADE: u16 = 42;
        if self.market.random().happens(100) {
            return datagram.put_heartbeat();
        }
        if self.market.random().happens(200) {
            return datagram.put_plain(TRADE, &[7; 40]);
        }
        if self.messages_left == 0 {
            self.messages_left = 1 + self.market.random().pick(&[74, 17, 6, 3]);
            self.securities = self.market.securities_of_event();
        }
        self.messages_left -= 1;
        let ends_event = self.messages_left == 0;
        if ends_event && self.market.random().happens(200) {
            return datagram.put_event_end(self.market.random().below(6));
        }
        let entries = self.entries();
        let has_orders = self.market.random().happens(500);
        datagram.put_book(time, ends_event, &entries, has_orders);
    }

    /// Makes the entries of a message; the first messages open the market.
    fn entries(&mut self) -> Vec<Entry> {
        let count = if self.opening.is_empty() { 1 + self.market.random().pick(&ENTRIES) } else { OPENING_ENTRIES };
        let mut entries = Vec::with_capacity(count);
        for _ in 0..count {
            entries.push(match self.opening.pop() {
                Some((security, side)) => self.market.opening_entry(security, side),
                None => self.market.entry_for_one_of(&self.securities),
            });
        }
        entries
    }

    /// Makes the entries of an event in a hub; the first events open the market.
    fn entries_of_hub(&mut self) -> Vec<Entry> {
        if self.opening.is_empty() {
            let count = 1 + self.market.random().pick(&ENTRIES);
            return self.market.entries_of_hub(count);
        }
        let sides = (0..OPENING_ENTRIES).map_while(|_| self.opening.pop());
        sides.map(|(security, side)| self.market.opening_entry(security, side)).collect()
    }

    /// Makes a datagram with snapshots of some securities as they are after packet `last`.
    pub fn snapshots(&self, securities: &[usize], last: u32) -> Vec<u8> {
        let mut datagram = Datagram::new(1, 0);
        for security in securities {
            let security = &self.market.list[*security];
            datagram.put_snapshot(security.id, last, &security.sides);
        }
        datagram.into_bytes()
    }
}

#[cfg(test)]
mod tests {
    use super::*;
    use crate::shape::Shape;

    #[test]
    fn a_packet_of_a_hub_is_one_event_of_one_message() {
        let mut packets = Packets::new(Market::new(&Shape::of_preset("one_leg").unwrap(), 5));
        for number in 1..=1_000 {
            let packet = packets.packet(number);
            let (header, message) = packet.split_at(12);
            assert_eq!(header[..4], number.to_le_bytes());
            assert_eq!(usize::from(u16::from_le_bytes([message[0], message[1]])), message.len());
            let (template, ending) = (message[4], message[18]);
            assert_eq!((template, ending), (46, 128));
        }
    }
}
