//! The datagram in a captured frame.

use crate::channel::Address;

/// The link layers that are read.
#[derive(Clone, Copy, PartialEq, Eq, Debug)]
pub enum Link {
    Ethernet,
    RawIp,
    Cooked,
    Cooked2,
}

impl Link {
    /// Gives the link layer of a number that a file says.
    pub fn of_number(number: u32) -> Option<Link> {
        Some(match number {
            1 => Link::Ethernet,
            101 => Link::RawIp,
            113 => Link::Cooked,
            276 => Link::Cooked2,
            _ => return None,
        })
    }
}

fn big16(bytes: &[u8], at: usize) -> u16 {
    u16::from_be_bytes([bytes[at], bytes[at + 1]])
}

fn big32(bytes: &[u8], at: usize) -> u32 {
    u32::from_be_bytes([bytes[at], bytes[at + 1], bytes[at + 2], bytes[at + 3]])
}

/// What a captured frame brings.
#[derive(Clone, Copy, PartialEq, Eq, Debug)]
pub enum Frame<'a> {
    /// No UDP datagram over IPv4.
    Other,
    /// The rest was not captured, the group neither.
    CutBeforeGroup,
    /// A datagram to a group, of which the port was not captured.
    CutBeforePort(u32),
    /// A fragment of a datagram to a group.
    Fragment(u32),
    /// Not all bytes of a datagram were captured.
    Cut(Address),
    /// A datagram whose lengths contradict one another, or its frame's.
    Broken(Address),
    Datagram(Address, &'a [u8]),
}

/// Finds the datagram of a frame, of which so many bytes were sent.
#[inline(always)]
pub fn frame_of(link: Link, frame: &[u8], original: usize) -> Frame<'_> {
    if link == Link::Ethernet
        && let Some(datagram) = plain_datagram(frame)
    {
        return datagram;
    }
    any_frame(link, frame, frame.len() < original)
}

/// Finds the datagram of an Ethernet frame without tags and of a packet without options, if it is whole.
#[inline(always)]
fn plain_datagram(frame: &[u8]) -> Option<Frame<'_>> {
    const HEADERS: usize = 42;
    let head: &[u8; HEADERS] = frame.first_chunk()?;
    let is_plain = head[12..15] == [0x08, 0x00, 0x45] && big16(head, 20) & 0x3fff == 0 && head[23] == 17;
    let end = 34 + usize::from(big16(head, 38));
    if !is_plain || end < HEADERS || usize::from(big16(head, 16)) + 14 < end {
        return None;
    }
    let payload = frame.get(HEADERS..end)?;
    Some(Frame::Datagram(Address { group: big32(head, 30), port: big16(head, 36) }, payload))
}

/// Finds the datagram of any frame, which was cut or is whole.
#[cold]
#[inline(never)]
fn any_frame(link: Link, frame: &[u8], is_cut: bool) -> Frame<'_> {
    const IPV4: u16 = 0x0800;
    let (header, kind_at) = match link {
        Link::RawIp => return packet_of(frame, is_cut),
        Link::Ethernet => (14, 12),
        Link::Cooked => (16, 14),
        Link::Cooked2 => (20, 0),
    };
    if frame.len() < header {
        return unread(is_cut);
    }
    let mut kind = big16(frame, kind_at);
    let mut rest = &frame[header..];
    // At most two tags of a virtual network.
    for _ in 0..2 {
        if kind != 0x8100 && kind != 0x88a8 {
            break;
        }
        if rest.len() < 4 {
            return unread(is_cut);
        }
        kind = big16(rest, 2);
        rest = &rest[4..];
    }
    if kind == IPV4 { packet_of(rest, is_cut) } else { Frame::Other }
}

/// What a frame is whose bytes end before its group.
fn unread<'a>(is_cut: bool) -> Frame<'a> {
    if is_cut { Frame::CutBeforeGroup } else { Frame::Other }
}

/// Finds the datagram of an IPv4 packet.
fn packet_of(packet: &[u8], is_cut: bool) -> Frame<'_> {
    if packet.len() < 20 {
        return unread(is_cut);
    }
    let header = usize::from(packet[0] % 16) * 4;
    if packet[0] / 16 != 4 || header < 20 || packet[9] != 17 {
        return Frame::Other;
    }
    let group = big32(packet, 16);
    // An offset, or a bit that more fragments follow.
    if big16(packet, 6) & 0x3fff != 0 {
        return Frame::Fragment(group);
    }
    let datagram = packet.get(header..).unwrap_or_default();
    if datagram.len() < 4 {
        return if is_cut { Frame::CutBeforePort(group) } else { Frame::Other };
    }
    let address = Address { group, port: big16(datagram, 2) };
    let unended = if is_cut { Frame::Cut(address) } else { Frame::Broken(address) };
    if datagram.len() < 8 {
        return unended;
    }
    let size = usize::from(big16(datagram, 4));
    if size < 8 || usize::from(big16(packet, 2)) < header + size {
        return Frame::Broken(address);
    }
    match datagram.get(8..size) {
        Some(payload) => Frame::Datagram(address, payload),
        None => unended,
    }
}
