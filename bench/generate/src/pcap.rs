//! A classic pcap file of Ethernet frames, and the channel's file that belongs to it.

use crate::feeds::{Arrival, Feed, PLACE};
use crate::market::Market;
use crate::packets::{PACKET_TIME, time_of};
use crate::random::Random;
use crate::text::write_instruments;
use std::io::{self, Write};
use std::net::Ipv4Addr;

/// Gives the group and port that a feed is sent to. A and S share a port, and are told apart by their groups.
fn address_of(feed: Feed) -> (Ipv4Addr, u16) {
    match feed {
        Feed::A => (Ipv4Addr::new(224, 0, 31, 1), 14_310),
        Feed::S => (Ipv4Addr::new(224, 0, 31, 43), 14_310),
        Feed::B => (Ipv4Addr::new(224, 0, 32, 1), 15_310),
    }
}

/// A group that is none of the channel's.
const OTHER_GROUP: Ipv4Addr = Ipv4Addr::new(224, 0, 31, 99);

/// Writes the file of the channel.
pub fn write_channel(market: &Market, out: &mut impl Write) -> io::Result<()> {
    writeln!(out, "# The feeds of a generated channel, and its instruments.")?;
    for feed in [Feed::A, Feed::B, Feed::S] {
        let (group, port) = address_of(feed);
        writeln!(out, "F {} {group} {port}", char::from(feed.letter()))?;
    }
    write_instruments(market, out)
}

/// Writes the frames of a pcap file, with some among them that are no feed's.
pub struct PcapWriter<W: Write> {
    out: W,
    random: Random,
    frame: Vec<u8>,
    /// Which frame that is no feed's comes next.
    turn: usize,
}

/// How often a frame that is no feed's follows a datagram, of 10,000.
const OTHERS: u32 = 200;

impl<W: Write> PcapWriter<W> {
    /// Begins with the file's header: version 2.4, microseconds, Ethernet.
    pub fn new(mut out: W, seed: u64) -> io::Result<PcapWriter<W>> {
        for number in [0xa1b2_c3d4, 2 | 4 << 16, 0, 0, 262_144, 1u32] {
            out.write_all(&number.to_le_bytes())?;
        }
        Ok(PcapWriter { out, random: Random::new(seed, "frames"), frame: Vec::new(), turn: 0 })
    }

    /// Writes a datagram's frame, and now and then one more.
    pub fn write_arrival(&mut self, arrival: &Arrival) -> io::Result<()> {
        let nanoseconds = time_of(0) + arrival.time * PACKET_TIME / PLACE;
        let (group, port) = address_of(arrival.feed);
        self.begin_datagram(group, port, &arrival.bytes);
        self.write_frame(nanoseconds)?;
        if self.random.happens(OTHERS) {
            self.begin_other(&arrival.bytes);
            self.write_frame(nanoseconds)?;
        }
        Ok(())
    }

    pub fn flush(&mut self) -> io::Result<()> {
        self.out.flush()
    }

    /// Puts a frame together that is no feed's, each kind in turn.
    fn begin_other(&mut self, payload: &[u8]) {
        let (group, port) = address_of(Feed::A);
        self.turn = (self.turn + 1) % 5;
        match self.turn {
            // The port of a feed and another group, and the other way round.
            0 => self.begin_datagram(OTHER_GROUP, port, payload),
            1 => self.begin_datagram(group, port + 1, payload),
            // Another protocol to the group of a feed.
            2 => {
                const TCP: u8 = 6;
                self.begin_packet(group, TCP, &[0; 20]);
            }
            // The protocol that asks for an address.
            3 => self.begin_frame([0xff; 6], 0x0806, &[0; 46]),
            // A packet of IPv6 to all nodes, with nothing behind its header.
            _ => {
                let mut packet = [0; 46];
                packet[0] = 0x60;
                packet[6] = 59;
                self.begin_frame([0x33, 0x33, 0, 0, 0, 1], 0x86dd, &packet);
            }
        }
    }

    /// Puts a UDP datagram together, without a checksum.
    fn begin_datagram(&mut self, group: Ipv4Addr, port: u16, payload: &[u8]) {
        const UDP: u8 = 17;
        const FROM_PORT: u16 = 40_000;
        let mut datagram = Vec::with_capacity(8 + payload.len());
        for number in [FROM_PORT, port, 8 + payload.len() as u16, 0] {
            datagram.extend(number.to_be_bytes());
        }
        datagram.extend(payload);
        self.begin_packet(group, UDP, &datagram);
    }

    /// Puts an IPv4 packet together.
    fn begin_packet(&mut self, group: Ipv4Addr, protocol: u8, content: &[u8]) {
        const FROM: Ipv4Addr = Ipv4Addr::new(10, 1, 2, 3);
        const MAY_NOT_BE_CUT: u16 = 0x4000;
        let mut header = vec![0x45, 0];
        for number in [20 + content.len() as u16, 0, MAY_NOT_BE_CUT] {
            header.extend(number.to_be_bytes());
        }
        header.extend([16, protocol, 0, 0]);
        header.extend(FROM.octets());
        header.extend(group.octets());
        let sum = checksum(&header);
        header[10..12].copy_from_slice(&sum.to_be_bytes());
        header.extend(content);
        let [_, second, third, fourth] = group.octets();
        self.begin_frame([0x01, 0x00, 0x5e, second & 0x7f, third, fourth], 0x0800, &header);
    }

    /// Puts an Ethernet frame together, padded to the least length.
    fn begin_frame(&mut self, to: [u8; 6], kind: u16, content: &[u8]) {
        const FROM: [u8; 6] = [0x02, 0, 0, 0, 0, 1];
        const LEAST: usize = 60;
        self.frame.clear();
        self.frame.extend(to);
        self.frame.extend(FROM);
        self.frame.extend(kind.to_be_bytes());
        self.frame.extend(content);
        self.frame.resize(self.frame.len().max(LEAST), 0);
    }

    /// Writes the frame with its record's header.
    fn write_frame(&mut self, nanoseconds: u64) -> io::Result<()> {
        let seconds = (nanoseconds / 1_000_000_000) as u32;
        let microseconds = (nanoseconds / 1_000 % 1_000_000) as u32;
        let length = self.frame.len() as u32;
        for number in [seconds, microseconds, length, length] {
            self.out.write_all(&number.to_le_bytes())?;
        }
        self.out.write_all(&self.frame)
    }
}

/// Gives the checksum of an IPv4 header.
fn checksum(header: &[u8]) -> u16 {
    let words = header.chunks_exact(2).map(|pair| u32::from(u16::from_be_bytes([pair[0], pair[1]])));
    let sum: u32 = words.sum();
    let folded = (sum & 0xffff) + (sum >> 16);
    !((folded & 0xffff) + (folded >> 16)) as u16
}

#[cfg(test)]
mod tests {
    use super::*;

    #[test]
    fn a_header_with_its_checksum_sums_up_to_nothing() {
        let mut writer = PcapWriter::new(Vec::new(), 1).unwrap();
        for length in [0, 1, 12, 700] {
            writer.begin_datagram(OTHER_GROUP, 1, &vec![7; length]);
            assert_eq!(checksum(&writer.frame[14..34]), 0);
        }
    }
}
