//! `counts`: tells what a capture on standard input holds, one count a line.

use plain_handler::input::Input;
use plain_handler::instruments::{Instrument, Kind};
use plain_handler::lines::{DATAGRAM_ROOM, LineReader, Skip, TEXT_SLACK, TakesRecords};
use plain_handler::receiver::Feed;
use plain_handler::wire::{self, Entry, Hears};
use std::collections::BTreeSet;
use std::process::ExitCode;

/// The counts so far.
#[derive(Default)]
struct Counts {
    outrights: u64,
    spreads: u64,
    datagrams: [u64; 3],
    refused: u64,
    skipped: u64,
    /// The bytes of all datagrams of A and B.
    bytes: u64,
    /// Numbers of packets, and how many messages each of their first copies has.
    packets: BTreeSet<u32>,
    first_copies_bytes: u64,
    messages: u64,
    event_ends: u64,
    entries: [[u64; 3]; 4],
    snapshots: u64,
    snapshot_levels: u64,
}

/// Hears the first copy of a packet.
struct FirstCopy<'a>(&'a mut Counts);

impl Hears for FirstCopy<'_> {
    fn entry(&mut self, _message: u32, _place: u32, entry: Entry) {
        self.0.entries[entry.side()][usize::from(entry.action)] += 1;
    }

    fn event_end(&mut self, _message: u32) {
        self.0.event_ends += 1;
    }
}

impl Counts {
    fn packet(&mut self, data: &[u8]) {
        self.bytes += data.len() as u64;
        let Ok(number) = wire::check_packet(data) else {
            self.refused += 1;
            return;
        };
        if self.packets.insert(number) {
            self.first_copies_bytes += data.len() as u64;
            self.messages += messages_of(data);
            // Safety: the datagram was accepted.
            unsafe { wire::walk_packet(data, &mut FirstCopy(self)) };
        }
    }

    fn snapshot(&mut self, data: &[u8]) {
        if wire::check_snapshots(data).is_err() {
            self.refused += 1;
            return;
        }
        // Safety: the datagram was accepted.
        for snapshot in unsafe { wire::snapshots(data) } {
            self.snapshots += 1;
            self.snapshot_levels += snapshot.levels().count() as u64;
        }
    }

    fn lines(&self) -> Vec<(String, u64)> {
        let highest = self.packets.last().copied().unwrap_or(0);
        let [a, b, s] = self.datagrams;
        let seen = self.packets.len() as u64;
        let mut lines: Vec<(String, u64)> = [
            ("outrights", self.outrights),
            ("spreads", self.spreads),
            ("highest packet", highest.into()),
            ("packets that came", seen),
            ("packets that came on neither feed", u64::from(highest) - seen),
            ("datagrams of A", a),
            ("datagrams of B", b),
            ("datagrams of S", s),
            ("copies beyond the first", a + b - seen - self.refused.min(a + b - seen)),
            ("refused datagrams", self.refused),
            ("skipped lines", self.skipped),
            ("bytes of A and B", self.bytes),
            ("bytes of first copies", self.first_copies_bytes),
            ("messages of first copies", self.messages),
            ("event ends", self.event_ends),
            ("entries", self.entries.iter().flatten().sum()),
            ("snapshots", self.snapshots),
            ("levels of snapshots", self.snapshot_levels),
        ]
        .map(|(name, count)| (name.to_owned(), count))
        .into();
        for (side, counts) in ["bids", "offers", "implied bids", "implied offers"].iter().zip(self.entries) {
            for (action, count) in ["new", "change", "delete"].iter().zip(counts) {
                lines.push((format!("{side}, {action}"), count));
            }
        }
        lines
    }
}

/// Counts the messages of an accepted datagram by their sizes.
fn messages_of(data: &[u8]) -> u64 {
    let mut rest = &data[12..];
    let mut count = 0;
    while let Some(size) = rest.first_chunk() {
        rest = &rest[usize::from(u16::from_le_bytes(*size))..];
        count += 1;
    }
    count
}

struct Counting {
    counts: Counts,
    bytes: Vec<u8>,
    newest: Vec<u8>,
}

impl TakesRecords for Counting {
    fn room(&mut self) -> *mut u8 {
        self.bytes.as_mut_ptr()
    }

    fn datagram(&mut self, feed: Feed, _line: u32, length: usize) {
        self.counts.datagrams[feed as usize] += 1;
        let data = &self.bytes[..length];
        if feed == Feed::S {
            self.counts.snapshot(data);
        } else {
            self.newest.clear();
            self.newest.extend_from_slice(data);
            self.counts.packet(data);
        }
    }

    fn repeat(&mut self, feed: Feed, _line: u32) {
        self.counts.datagrams[feed as usize] += 1;
        self.counts.packet(&self.newest);
    }

    fn close(&mut self, _line: u32) {}

    fn skipped(&mut self, _line: u32, _why: Skip) {
        self.counts.skipped += 1;
    }

    fn listed(&mut self, instrument: &Instrument) {
        match instrument.kind {
            Kind::Outright { .. } => self.counts.outrights += 1,
            Kind::Calendar { .. } => self.counts.spreads += 1,
        }
    }
}

fn main() -> ExitCode {
    let mut counting = Counting { counts: Counts::default(), bytes: vec![0; DATAGRAM_ROOM], newest: Vec::new() };
    let mut input = Input::new(std::io::stdin().lock(), TEXT_SLACK);
    let mut lines = LineReader::default();
    while !input.is_over() {
        if let Err(why) = input.read_more() {
            eprintln!("{why}");
            return ExitCode::FAILURE;
        }
        let is_last = input.is_over();
        let (text, end) = input.bytes();
        // Safety: the input has zeros behind it.
        match unsafe { lines.read::<false>(text, end, is_last, &mut counting) } {
            Ok(count) => input.take(count),
            Err(refusal) => {
                eprintln!("line {}: {}", refusal.line, refusal.why.told());
                return ExitCode::from(2);
            }
        }
    }
    for (name, count) in counting.counts.lines() {
        println!("{count:>12} {name}");
    }
    ExitCode::SUCCESS
}
