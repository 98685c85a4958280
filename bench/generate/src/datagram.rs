//! Datagrams, put together message by message.

/// What an entry does to its side.
#[derive(Clone, Copy, PartialEq, Eq, Debug)]
pub enum Action {
    New = 0,
    Change = 1,
    Delete = 2,
}

/// The sides of a book, by their place: bids, offers, implied bids, implied offers.
pub const ENTRY_TYPES: [u8; 4] = *b"01EF";

/// An entry of a book.
#[derive(Clone, Copy, PartialEq, Eq, Debug)]
pub struct Entry {
    pub security: i32,
    pub side: usize,
    pub action: Action,
    /// 1 is the best.
    pub level: u8,
    pub price: i64,
    pub size: i32,
}

/// A level of a book.
#[derive(Clone, Copy, PartialEq, Eq, Debug)]
pub struct Level {
    pub price: i64,
    pub size: i32,
}

/// The version that every message says.
const VERSION: u16 = 9;

/// The payload of one UDP datagram.
pub struct Datagram {
    bytes: Vec<u8>,
}

impl Datagram {
    /// Begins with a packet's header.
    pub fn new(number: u32, time: u64) -> Datagram {
        let mut bytes = Vec::with_capacity(512);
        bytes.extend(number.to_le_bytes());
        bytes.extend(time.to_le_bytes());
        Datagram { bytes }
    }

    pub fn into_bytes(self) -> Vec<u8> {
        self.bytes
    }

    /// Puts a message's size and header, with as many bytes after them as `body` says.
    fn put_header(&mut self, template: u16, block: u16, body: usize) {
        self.bytes.extend((10 + body as u16).to_le_bytes());
        for number in [block, template, 1, VERSION] {
            self.bytes.extend(number.to_le_bytes());
        }
    }

    /// Puts a message that has a root block and nothing else.
    pub fn put_plain(&mut self, template: u16, root: &[u8]) {
        self.put_header(template, root.len() as u16, root.len());
        self.bytes.extend(root);
    }

    /// Puts a heartbeat.
    pub fn put_heartbeat(&mut self) {
        self.put_plain(12, &[]);
    }

    /// Puts a message that only ends its event, of one of six templates.
    pub fn put_event_end(&mut self, which: usize) {
        const TEMPLATES: [u16; 6] = [37, 47, 48, 49, 50, 51];
        let mut root = [0; 9];
        root[8] = 128;
        self.put_plain(TEMPLATES[which], &root);
    }

    /// Puts a message of book entries; `has_orders` puts an empty group of orders after them.
    pub fn put_book(&mut self, time: u64, ends_event: bool, entries: &[Entry], has_orders: bool) {
        const ROOT: u16 = 11;
        const ENTRY: u16 = 32;
        const NO_ORDERS: [u8; 8] = [24, 0, 0, 0, 0, 0, 0, 0];
        let orders: &[u8] = if has_orders { &NO_ORDERS } else { &[] };
        let group = 3 + usize::from(ENTRY) * entries.len();
        self.put_header(46, ROOT, usize::from(ROOT) + group + orders.len());
        self.bytes.extend(time.to_le_bytes());
        self.bytes.extend([if ends_event { 128 } else { 0 }, 0, 0]);
        self.bytes.extend(ENTRY.to_le_bytes());
        self.bytes.push(entries.len() as u8);
        for (place, entry) in entries.iter().enumerate() {
            self.bytes.extend(entry.price.to_le_bytes());
            self.bytes.extend(entry.size.to_le_bytes());
            self.bytes.extend(entry.security.to_le_bytes());
            self.bytes.extend((place as u32).to_le_bytes());
            self.bytes.extend(1u32.to_le_bytes());
            self.bytes.extend([entry.level, entry.action as u8, ENTRY_TYPES[entry.side], 0, 0, 0, 0, 0]);
        }
        self.bytes.extend(orders);
    }

    /// Puts a snapshot of the sides of a security, as they are after packet `last`.
    pub fn put_snapshot(&mut self, security: i32, last: u32, sides: &[Vec<Level>; 4]) {
        const ROOT: u16 = 16;
        const ENTRY: u16 = 22;
        let count: usize = sides.iter().map(Vec::len).sum();
        self.put_header(52, ROOT, usize::from(ROOT) + 3 + usize::from(ENTRY) * count);
        self.bytes.extend(last.to_le_bytes());
        self.bytes.extend([0; 4]);
        self.bytes.extend(security.to_le_bytes());
        self.bytes.extend([0; 4]);
        self.bytes.extend(ENTRY.to_le_bytes());
        self.bytes.push(count as u8);
        for (levels, entry_type) in sides.iter().zip(ENTRY_TYPES) {
            for (place, level) in levels.iter().enumerate() {
                self.bytes.extend(level.price.to_le_bytes());
                self.bytes.extend(level.size.to_le_bytes());
                self.bytes.extend(1u32.to_le_bytes());
                self.bytes.extend([place as u8 + 1, 0, 0, 0, 0, entry_type]);
            }
        }
    }
}
