//! Datagrams as they come: the check of a whole datagram, and the reads that are safe after it.
//!
//! A datagram is checked once, message by message. What was accepted is then walked without any further check.

use crate::refusal::Refusal;
use std::ptr::read_unaligned;

/// The length in bytes of a packet's header.
const PACKET_HEADER: usize = 12;

/// The length in bytes of a message's size and header.
const MESSAGE_HEADER: usize = 10;

/// The template of a message with book entries.
const BOOK: u16 = 46;

/// The template of a snapshot.
const SNAPSHOT: u16 = 52;

/// The template that resets a channel.
const RESET: u16 = 4;

/// The least root block of a message whose event end is read.
const INDICATOR_BLOCK: usize = 9;

/// Reads a little-endian number of two bytes.
///
/// # Safety
/// Two bytes are readable at `at`.
#[inline(always)]
unsafe fn u16_at(at: *const u8) -> u16 {
    u16::from_le(unsafe { read_unaligned(at.cast()) })
}

/// Reads a little-endian number of four bytes.
///
/// # Safety
/// Four bytes are readable at `at`.
#[inline(always)]
unsafe fn u32_at(at: *const u8) -> u32 {
    u32::from_le(unsafe { read_unaligned(at.cast()) })
}

/// Reads a little-endian number of eight bytes.
///
/// # Safety
/// Eight bytes are readable at `at`.
#[inline(always)]
unsafe fn i64_at(at: *const u8) -> i64 {
    i64::from_le(unsafe { read_unaligned(at.cast()) })
}

/// The most levels of an entry type's side: 10 direct, 2 implied, 0 where it is none of a book.
static MOST_LEVELS: [u8; 256] = {
    let mut table = [0; 256];
    table[b'0' as usize] = 10;
    table[b'1' as usize] = 10;
    table[b'E' as usize] = 2;
    table[b'F' as usize] = 2;
    table
};

/// Gives the side of a book's entry type: 0 bid, 1 offer, 2 implied bid, 3 implied offer.
#[inline(always)]
fn side_of(kind: u8) -> usize {
    // '0' and '1' are 0x30 and 0x31, 'E' and 'F' 0x45 and 0x46.
    if kind < b'E' { (kind & 1) as usize } else { 2 + (kind - b'E') as usize }
}

/// Tells whether of a template only the event end is read.
#[inline(always)]
fn is_carrier(template: u16) -> bool {
    const CARRIERS: u64 = 1 << 37 | 0b11111 << 47;
    template < 64 && CARRIERS >> template & 1 == 1
}

/// A message in a datagram, by its first byte.
#[derive(Clone, Copy)]
struct Message {
    at: *const u8,
}

impl Message {
    #[inline(always)]
    unsafe fn size(self) -> usize {
        unsafe { u16_at(self.at) as usize }
    }

    #[inline(always)]
    unsafe fn block(self) -> usize {
        unsafe { u16_at(self.at.add(2)) as usize }
    }

    #[inline(always)]
    unsafe fn template(self) -> u16 {
        unsafe { u16_at(self.at.add(4)) }
    }

    #[inline(always)]
    unsafe fn schema(self) -> u16 {
        unsafe { u16_at(self.at.add(6)) }
    }

    #[inline(always)]
    unsafe fn root(self) -> *const u8 {
        unsafe { self.at.add(MESSAGE_HEADER) }
    }

    /// Tells whether the message ends its event.
    #[inline(always)]
    unsafe fn ends_event(self) -> bool {
        unsafe { *self.root().add(8) & 128 != 0 }
    }

    /// Gives the group of an accepted message.
    #[inline(always)]
    unsafe fn group(self) -> Group {
        unsafe { Group { at: self.root().add(self.block()) } }
    }
}

/// A repeating group, by the first byte of its dimension.
#[derive(Clone, Copy)]
struct Group {
    at: *const u8,
}

impl Group {
    #[inline(always)]
    unsafe fn entry_length(self) -> usize {
        unsafe { u16_at(self.at) as usize }
    }

    #[inline(always)]
    unsafe fn count(self) -> usize {
        unsafe { *self.at.add(2) as usize }
    }

    #[inline(always)]
    unsafe fn entries(self) -> *const u8 {
        unsafe { self.at.add(3) }
    }
}

/// Finds the message that begins `left` bytes before the datagram's end, or its refusal.
#[inline(always)]
unsafe fn framed(at: *const u8, left: usize) -> Result<(Message, usize), Refusal> {
    if left == 1 {
        return Err(Refusal::SizeCut);
    }
    let message = Message { at };
    unsafe {
        let size = message.size();
        if size < MESSAGE_HEADER {
            return Err(Refusal::SizeSmall);
        }
        if size > left {
            return Err(Refusal::SizePast);
        }
        if message.schema() != 1 {
            return Err(Refusal::Schema);
        }
        Ok((message, size))
    }
}

/// Checks that the root block has at least `least` bytes and lies within the message.
#[inline(always)]
unsafe fn check_block(message: Message, size: usize, least: usize) -> Result<usize, Refusal> {
    let block = unsafe { message.block() };
    if block < least {
        return Err(Refusal::BlockShort);
    }
    if MESSAGE_HEADER + block > size {
        return Err(Refusal::BlockPast);
    }
    Ok(block)
}

/// Checks root block and group of a message whose entries have at least `least_entry` bytes.
#[inline(always)]
unsafe fn check_group(message: Message, size: usize, least: usize, least_entry: usize) -> Result<Group, Refusal> {
    unsafe {
        let block = check_block(message, size, least)?;
        let left = size - MESSAGE_HEADER - block;
        if left < 3 {
            return Err(Refusal::GroupCut);
        }
        let group = message.group();
        let (each, count) = (group.entry_length(), group.count());
        if count > 0 && each < least_entry {
            return Err(Refusal::GroupShort);
        }
        if count * each > left - 3 && count > 0 {
            return Err(Refusal::GroupPast);
        }
        Ok(group)
    }
}

/// Tells why an entry of a book is refused.
#[cold]
#[inline(never)]
fn entry_refusal(entry: Entry) -> Refusal {
    let most = MOST_LEVELS[entry.kind as usize];
    if most == 0 {
        Refusal::EntryType
    } else if entry.action > 2 {
        Refusal::Action
    } else if entry.level == 0 || entry.level > most {
        Refusal::Level
    } else if entry.price == i64::MAX {
        Refusal::Price
    } else {
        Refusal::Size
    }
}

/// Checks a whole datagram of feed A or B, and gives its packet's number or the first refusal.
#[inline(always)]
pub fn check_packet(data: &[u8]) -> Result<u32, Refusal> {
    if data.len() < PACKET_HEADER {
        return Err(Refusal::TooShort);
    }
    // Safety: each read lies below `left` bytes, or below the message's size, which is at most that.
    unsafe {
        let number = u32_at(data.as_ptr());
        if number == 0 {
            return Err(Refusal::NumberZero);
        }
        let mut at = data.as_ptr().add(PACKET_HEADER);
        let mut left = data.len() - PACKET_HEADER;
        while left > 0 {
            let (message, size) = framed(at, left)?;
            let template = message.template();
            if template == BOOK {
                check_entries(check_group(message, size, INDICATOR_BLOCK, 27)?)?;
            } else if is_carrier(template) {
                check_block(message, size, INDICATOR_BLOCK)?;
            } else if template == RESET {
                return Err(Refusal::ChannelReset);
            }
            at = at.add(size);
            left -= size;
        }
        Ok(number)
    }
}

/// Checks the entries of a book's message.
#[inline(always)]
unsafe fn check_entries(group: Group) -> Result<(), Refusal> {
    unsafe {
        let each = group.entry_length();
        let mut at = group.entries();
        for _ in 0..group.count() {
            let entry = Entry::read(at);
            let has_place = entry.level.wrapping_sub(1) < MOST_LEVELS[entry.kind as usize];
            let has_value = (entry.price != i64::MAX) & ((entry.size as u32) < i32::MAX as u32);
            let is_known = entry.action < 2 && has_value || entry.action == 2;
            if !(has_place & is_known) {
                return Err(entry_refusal(entry));
            }
            at = at.add(each);
        }
        Ok(())
    }
}

/// An entry of a book.
#[derive(Clone, Copy, Debug, PartialEq, Eq)]
pub struct Entry {
    pub price: i64,
    pub size: i32,
    pub security: i32,
    /// 1 is the best.
    pub level: u8,
    /// 0 new, 1 change, 2 delete.
    pub action: u8,
    kind: u8,
}

impl Entry {
    /// Reads the entry at `at`.
    #[inline(always)]
    unsafe fn read(at: *const u8) -> Entry {
        unsafe {
            let tail = u32_at(at.add(23));
            Entry {
                price: i64_at(at),
                size: u32_at(at.add(8)) as i32,
                security: u32_at(at.add(12)) as i32,
                level: (tail >> 8) as u8,
                action: (tail >> 16) as u8,
                kind: (tail >> 24) as u8,
            }
        }
    }

    /// Makes an entry of a side and an action; level, price and size are set behind it.
    #[cfg(test)]
    pub fn of_side(side: usize, action: u8) -> Entry {
        Entry { price: 0, size: 0, security: 1, level: 1, action, kind: b"01EF"[side] }
    }

    /// Gives the side of the entry: 0 bid, 1 offer, 2 implied bid, 3 implied offer.
    #[inline(always)]
    pub fn side(&self) -> usize {
        side_of(self.kind)
    }
}

/// What hears the entries and event ends of a packet.
pub trait Hears {
    /// Hears entry `place` of message `message`, both counted from 1.
    fn entry(&mut self, message: u32, place: u32, entry: Entry);

    /// Hears that message `message` ended its event.
    fn event_end(&mut self, message: u32);
}

/// Walks the messages of a datagram of feed A or B.
///
/// # Safety
/// `check_packet` accepted the datagram.
#[inline(always)]
pub unsafe fn walk_packet(data: &[u8], hears: &mut impl Hears) {
    unsafe {
        let end = data.as_ptr_range().end;
        let mut message = Message { at: data.as_ptr().add(PACKET_HEADER) };
        let mut number = 0;
        while message.at < end {
            number += 1;
            let template = message.template();
            if template == BOOK {
                let group = message.group();
                let each = group.entry_length();
                let mut at = group.entries();
                for place in 1..=group.count() as u32 {
                    hears.entry(number, place, Entry::read(at));
                    at = at.add(each);
                }
            }
            if (template == BOOK || is_carrier(template)) && message.ends_event() {
                hears.event_end(number);
            }
            message.at = message.at.add(message.size());
        }
    }
}

/// A level of a snapshot.
#[derive(Clone, Copy, Debug, PartialEq, Eq)]
pub struct SnapshotLevel {
    pub price: i64,
    pub size: i32,
    /// 1 is the best.
    pub level: u8,
    /// 0 bid, 1 offer, 2 implied bid, 3 implied offer.
    pub side: usize,
}

/// A snapshot of one security, within an accepted datagram.
#[derive(Clone, Copy)]
pub struct Snapshot<'a> {
    message: &'a [u8],
}

impl<'a> Snapshot<'a> {
    /// Takes the bytes of a message that `check_snapshots` accepted as a snapshot.
    ///
    /// # Safety
    /// They are such bytes.
    pub unsafe fn of_accepted(message: &'a [u8]) -> Snapshot<'a> {
        Snapshot { message }
    }

    /// Gives the message's bytes.
    pub fn bytes(&self) -> &'a [u8] {
        self.message
    }

    fn part(&self) -> Message {
        Message { at: self.message.as_ptr() }
    }

    /// Gives the number of the last packet that the snapshot includes, 0 where it includes none.
    pub fn last(&self) -> u32 {
        unsafe { u32_at(self.part().root()) }
    }

    /// Gives the security's id.
    pub fn security(&self) -> i32 {
        unsafe { u32_at(self.part().root().add(8)) as i32 }
    }

    /// Gives the levels of the book's sides, in the order in which they stand.
    pub fn levels(&self) -> impl Iterator<Item = SnapshotLevel> + use<'a> {
        // Safety: the message was accepted, so all of its entries lie within it.
        let (group, each) = unsafe { (self.part().group(), self.part().group().entry_length()) };
        let count = unsafe { group.count() };
        (0..count).filter_map(move |place| unsafe { snapshot_level(group.entries().add(place * each)) })
    }
}

/// Reads a snapshot's entry, if it is a level of a book.
#[inline(always)]
unsafe fn snapshot_level(at: *const u8) -> Option<SnapshotLevel> {
    unsafe {
        let kind = *at.add(21);
        if MOST_LEVELS[kind as usize] == 0 {
            return None;
        }
        let size = u32_at(at.add(8)) as i32;
        Some(SnapshotLevel { price: i64_at(at), size, level: *at.add(16), side: side_of(kind) })
    }
}

/// Checks a whole datagram of feed S, and tells the first refusal.
#[inline(always)]
pub fn check_snapshots(data: &[u8]) -> Result<(), Refusal> {
    if data.len() < PACKET_HEADER {
        return Err(Refusal::TooShort);
    }
    // Safety: as in `check_packet`.
    unsafe {
        let mut at = data.as_ptr().add(PACKET_HEADER);
        let mut left = data.len() - PACKET_HEADER;
        while left > 0 {
            let (message, size) = framed(at, left)?;
            if message.template() == SNAPSHOT {
                check_levels(check_group(message, size, 16, 22)?)?;
            }
            at = at.add(size);
            left -= size;
        }
        Ok(())
    }
}

/// Checks the levels of a snapshot: each in range, and of each side 1 to n, each once.
#[inline(always)]
unsafe fn check_levels(group: Group) -> Result<(), Refusal> {
    let mut seen = [0u16; 4];
    let mut is_doubled = false;
    unsafe {
        let each = group.entry_length();
        let mut at = group.entries();
        for _ in 0..group.count() {
            let most = MOST_LEVELS[*at.add(21) as usize];
            if let Some(level) = snapshot_level(at) {
                if level.level.wrapping_sub(1) >= most {
                    return Err(Refusal::Level);
                }
                if level.price == i64::MAX {
                    return Err(Refusal::Price);
                }
                if level.size as u32 >= i32::MAX as u32 {
                    return Err(Refusal::Size);
                }
                let bit = 1 << (level.level - 1);
                is_doubled |= seen[level.side] & bit != 0;
                seen[level.side] |= bit;
            }
            at = at.add(each);
        }
    }
    if is_doubled || seen.iter().any(|levels| levels & (levels + 1) != 0) {
        return Err(Refusal::SnapshotLevels);
    }
    Ok(())
}

/// Gives the snapshots of a datagram in their order.
///
/// # Safety
/// `check_snapshots` accepted the datagram.
pub unsafe fn snapshots(data: &[u8]) -> impl Iterator<Item = Snapshot<'_>> {
    let mut rest = data.get(PACKET_HEADER..).unwrap_or(&[]);
    std::iter::from_fn(move || {
        while !rest.is_empty() {
            let message = Message { at: rest.as_ptr() };
            let (size, template) = unsafe { (message.size(), message.template()) };
            let (first, after) = rest.split_at(size);
            rest = after;
            if template == SNAPSHOT {
                return Some(Snapshot { message: first });
            }
        }
        None
    })
}
