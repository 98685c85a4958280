//! Datagrams, cut and bent, against a check that is written slowly and safely.

use plain_handler::wire::{Entry, Hears, check_packet, check_snapshots, snapshots, walk_packet};

/// The numbers of refusals that a datagram of a feed has, in reading order; the first one counts.
struct Slow<'a> {
    data: &'a [u8],
    is_snapshot_feed: bool,
}

impl Slow<'_> {
    fn number(&self, at: usize, size: usize) -> Option<u64> {
        let bytes = self.data.get(at..at + size)?;
        Some(bytes.iter().rev().fold(0, |number, byte| number << 8 | u64::from(*byte)))
    }

    /// Gives the number of the refusal, or none.
    fn refusal(&self) -> Option<u8> {
        if self.data.len() < 12 {
            return Some(1);
        }
        if !self.is_snapshot_feed && self.number(0, 4) == Some(0) {
            return Some(2);
        }
        let mut at = 12;
        while at < self.data.len() {
            match self.message(at) {
                Ok(size) => at += size,
                Err(number) => return Some(number),
            }
        }
        None
    }

    fn message(&self, at: usize) -> Result<usize, u8> {
        let size = self.number(at, 2).ok_or(3)? as usize;
        if size < 10 {
            return Err(4);
        }
        if size > self.data.len() - at {
            return Err(5);
        }
        if self.number(at + 6, 2) != Some(1) {
            return Err(6);
        }
        let template = self.number(at + 4, 2).unwrap();
        match (self.is_snapshot_feed, template) {
            (false, 4) => return Err(17),
            (false, 46) => self.group(at, size, 9, 27)?,
            (true, 52) => self.group(at, size, 16, 22)?,
            (false, 37 | 47..=51) => _ = self.block(at, size, 9)?,
            _ => {}
        }
        Ok(size)
    }

    fn block(&self, at: usize, size: usize, least: usize) -> Result<usize, u8> {
        let block = self.number(at + 2, 2).unwrap() as usize;
        if block < least {
            return Err(7);
        }
        if 10 + block > size {
            return Err(8);
        }
        Ok(block)
    }

    fn group(&self, at: usize, size: usize, least: usize, least_entry: usize) -> Result<(), u8> {
        let block = self.block(at, size, least)?;
        if size - 10 - block < 3 {
            return Err(9);
        }
        let group = at + 10 + block;
        let each = self.number(group, 2).unwrap() as usize;
        let count = self.number(group + 2, 1).unwrap() as usize;
        if count > 0 && each < least_entry {
            return Err(10);
        }
        if count > 0 && count * each > size - 10 - block - 3 {
            return Err(11);
        }
        let entries = (0..count).map(|place| group + 3 + place * each);
        if self.is_snapshot_feed { self.snapshot_entries(entries) } else { self.book_entries(entries) }
    }

    fn value(&self, entry: usize) -> Result<(), u8> {
        if self.number(entry, 8) == Some(i64::MAX as u64) {
            return Err(15);
        }
        if self.number(entry + 8, 4).unwrap() >= 0x7fff_ffff {
            return Err(16);
        }
        Ok(())
    }

    fn book_entries(&self, mut entries: impl Iterator<Item = usize>) -> Result<(), u8> {
        entries.try_for_each(|entry| {
            let most = most_levels(self.data[entry + 26]).ok_or(13)?;
            let (level, action) = (self.data[entry + 24], self.data[entry + 25]);
            if action > 2 {
                return Err(12);
            }
            if level == 0 || level > most {
                return Err(14);
            }
            if action == 2 { Ok(()) } else { self.value(entry) }
        })
    }

    fn snapshot_entries(&self, entries: impl Iterator<Item = usize>) -> Result<(), u8> {
        let mut seen: Vec<(u8, u8)> = Vec::new();
        for entry in entries {
            let kind = self.data[entry + 21];
            let Some(most) = most_levels(kind) else {
                continue;
            };
            let level = self.data[entry + 16];
            if level == 0 || level > most {
                return Err(14);
            }
            self.value(entry)?;
            seen.push((kind, level));
        }
        seen.sort();
        let is_whole = seen
            .chunk_by(|one, other| one.0 == other.0)
            .all(|side| side.iter().zip(1..).all(|(level, place)| level.1 == place));
        if is_whole { Ok(()) } else { Err(18) }
    }
}

fn most_levels(kind: u8) -> Option<u8> {
    match kind {
        b'0' | b'1' => Some(10),
        b'E' | b'F' => Some(2),
        _ => None,
    }
}

#[derive(Default)]
struct Sum(u64);

impl Hears for Sum {
    fn entry(&mut self, message: u32, place: u32, entry: Entry) {
        assert!(entry.side() < 4 && (1..=10).contains(&entry.level) && entry.action <= 2);
        self.0 += u64::from(message) + u64::from(place);
    }

    fn event_end(&mut self, message: u32) {
        self.0 += u64::from(message);
    }
}

/// Compares both answers, and walks what was accepted.
fn compare(data: &[u8]) -> [Option<u8>; 2] {
    let slow = |is_snapshot_feed| Slow { data, is_snapshot_feed }.refusal();
    let packet = check_packet(data);
    assert_eq!(packet.err().map(|refusal| refusal.number()), slow(false), "{data:02x?}");
    let snapshot = check_snapshots(data);
    assert_eq!(snapshot.err().map(|refusal| refusal.number()), slow(true), "{data:02x?}");
    // Safety: both were accepted.
    unsafe {
        if packet.is_ok() {
            walk_packet(data, &mut Sum::default());
        }
        if snapshot.is_ok() {
            snapshots(data).for_each(|snapshot| assert!(snapshot.levels().all(|level| level.level <= 10)));
        }
    }
    [slow(false), slow(true)]
}

fn message(template: u16, block: u16, body: &[u8]) -> Vec<u8> {
    let mut bytes = (10 + body.len() as u16).to_le_bytes().to_vec();
    for number in [block, template, 1, 9] {
        bytes.extend(number.to_le_bytes());
    }
    bytes.extend(body);
    bytes
}

/// Makes a group with entries of a length, each with a price, a size, and bytes at two places.
fn group(each: usize, entries: &[(i64, i32, usize, &[u8])]) -> Vec<u8> {
    let mut bytes = vec![each as u8, 0, entries.len() as u8];
    for (price, size, at, tail) in entries {
        let mut entry = [price.to_le_bytes().as_slice(), &size.to_le_bytes()].concat();
        entry.resize(each, 0);
        entry[*at..at + tail.len()].copy_from_slice(tail);
        bytes.extend(entry);
    }
    bytes
}

/// Makes a datagram with messages of all kinds of the incremental feeds.
fn packet() -> Vec<u8> {
    let entries = [(100, 5, 24, &[1, 0, b'0'][..]), (-7, 0, 24, &[10, 1, b'1']), (i64::MAX, -1, 24, &[2, 2, b'E'])];
    let book = [vec![0; 11], group(32, &entries)].concat();
    let least = [vec![0; 9], group(27, &entries[..1])].concat();
    let messages = [
        message(46, 11, &book),
        message(12, 0, &[]),
        message(50, 9, &[128; 9]),
        message(46, 9, &least),
        message(99, 700, &[1, 2, 3]),
    ];
    [vec![7, 0, 0, 0, 0, 0, 0, 0, 0, 0, 0, 0], messages.concat()].concat()
}

/// Makes a datagram with two snapshots and something else.
fn snapshot() -> Vec<u8> {
    let tail = |level, kind| [level, 0, 0, 0, 0, kind];
    let tails = [tail(2, b'0'), tail(1, b'0'), tail(1, b'F'), tail(77, b'J')];
    let entries: Vec<_> = tails.iter().map(|tail| (100, 5, 16, tail.as_slice())).collect();
    let body = [vec![3; 16], group(22, &entries)].concat();
    let messages =
        [message(52, 16, &body), message(4, 0, &[]), message(52, 16, &[vec![0; 16], group(22, &[])].concat())];
    [vec![0; 12], messages.concat()].concat()
}

#[test]
fn datagrams_cut_to_each_length_have_the_slow_answer() {
    assert_eq!(compare(&packet())[0], None);
    assert_eq!(compare(&snapshot())[1], None);
    for data in [packet(), snapshot()] {
        (0..data.len()).for_each(|length| _ = compare(&data[..length]));
    }
}

#[test]
fn datagrams_with_bent_bytes_have_the_slow_answer() {
    let mut seen = std::collections::BTreeSet::new();
    for data in [packet(), snapshot()] {
        for place in 0..data.len() {
            for value in 0..=255 {
                let mut bent = data.clone();
                bent[place] = value;
                seen.extend(compare(&bent).into_iter().flatten());
                // A wrong value and a wrong length beside it: which is told first?
                let length = bent.len() - 1;
                bent.truncate(length);
                seen.extend(compare(&bent).into_iter().flatten());
            }
        }
    }
    // A null price or size takes more bytes than one.
    for (price, size, wanted) in [(i64::MAX, 5, 15), (5, i32::MAX, 16), (5, -1, 16), (i64::MIN, 0, 0)] {
        let entry = [(price, size, 24, &[1, 0, b'0'][..])];
        let data = [vec![1; 12], message(46, 9, &[vec![0; 9], group(27, &entry)].concat())].concat();
        assert_eq!(compare(&data)[0].unwrap_or(0), wanted);
        seen.insert(wanted);
        let entry = [(price, size, 16, &[1, 0, 0, 0, 0, b'1'][..])];
        let data = [vec![1; 12], message(52, 16, &[vec![0; 16], group(22, &entry)].concat())].concat();
        assert_eq!(compare(&data)[1].unwrap_or(0), wanted);
    }
    let missed: Vec<u8> = (2..=18).filter(|number| !seen.contains(number)).collect();
    assert!(missed.is_empty(), "no datagram was refused by {missed:?}");
}
