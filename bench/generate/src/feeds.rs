//! The way of packets over the feeds: what is lost, late or repeated, and in which order all of it comes.

use crate::packets::Packets;
use crate::random::Random;
use crate::shape::{BURST_LENGTH, Gaps, MOST_PLACES_LATE, Shape};
use crate::snapshots::SnapshotFeed;
use std::cmp::Reverse;
use std::collections::{BTreeSet, BinaryHeap};

/// The feeds of a channel.
#[derive(Clone, Copy, PartialEq, Eq, PartialOrd, Ord, Debug)]
pub enum Feed {
    A,
    B,
    S,
}

impl Feed {
    pub fn letter(self) -> u8 {
        match self {
            Feed::A => b'A',
            Feed::B => b'B',
            Feed::S => b'S',
        }
    }
}

/// How long after one packet the next one is sent; times are in thousandths of this.
pub const PLACE: u64 = 1000;

/// A datagram that comes.
#[derive(Clone, PartialEq, Eq, PartialOrd, Ord, Debug)]
pub struct Arrival {
    /// When it comes, in thousandths of a place.
    pub time: u64,
    /// Tells arrivals of one time apart.
    serial: u64,
    pub feed: Feed,
    pub bytes: Vec<u8>,
}

/// All datagrams in the order in which they come.
pub struct Feeds {
    packets: Packets,
    shape: Shape,
    /// Its own numbers, so that the packets of a seed are the same whatever is lost.
    random: Random,
    /// The number of the packet that is sent next; none where all were sent.
    next: Option<u32>,
    /// Packets that are lost on both feeds.
    lost: BTreeSet<u32>,
    waiting: BinaryHeap<Reverse<Arrival>>,
    serial: u64,
    snapshots: SnapshotFeed,
}

impl Feeds {
    pub fn new(packets: Packets, shape: Shape, seed: u64) -> Feeds {
        let mut random = Random::new(seed, "feeds");
        let lost = lost_on_both(&shape, &mut random);
        let snapshots = SnapshotFeed::new(shape.snapshots);
        Feeds { packets, shape, random, next: Some(1), lost, waiting: BinaryHeap::new(), serial: 0, snapshots }
    }

    fn put(&mut self, time: u64, feed: Feed, bytes: Vec<u8>) {
        self.serial += 1;
        self.waiting.push(Reverse(Arrival { time, serial: self.serial, feed, bytes }));
    }

    /// Sends a packet on both feeds, and the snapshots that follow it.
    fn send(&mut self, number: u32) {
        let bytes = self.packets.packet(number);
        let now = u64::from(number) * PLACE;
        let is_lost_on_a = self.random.happens(self.shape.lost);
        let is_lost_on_b = self.random.happens(self.shape.lost) && !is_lost_on_a;
        let is_spoilt = self.random.happens(self.shape.spoilt) && !is_lost_on_a && !is_lost_on_b;
        let spoilt = [Feed::A, Feed::B][self.random.below(2)];
        if !self.lost.contains(&number) {
            for (feed, lag, is_lost) in [(Feed::A, PLACE / 10, is_lost_on_a), (Feed::B, PLACE * 6 / 10, is_lost_on_b)] {
                if !is_lost {
                    self.send_on(feed, now + lag, &bytes, is_spoilt && feed == spoilt);
                }
            }
        }
        for datagram in self.snapshots.after_packet(number, &self.packets, &mut self.random) {
            let time = now + PLACE * 9 / 10 + self.random.below(PLACE as usize) as u64;
            self.put(time, Feed::S, datagram);
        }
    }

    /// Sends a packet on one feed, now and then late, twice or spoilt.
    fn send_on(&mut self, feed: Feed, mut time: u64, bytes: &[u8], is_spoilt: bool) {
        if self.random.happens(self.shape.late) {
            time += self.places();
        }
        if self.random.happens(self.shape.repeated) {
            let again = time + self.places();
            self.put(again, feed, bytes.to_vec());
        }
        let mut bytes = bytes.to_vec();
        if is_spoilt {
            // A byte more than a cut packet, which could else end right after a message.
            bytes.truncate(13 + self.random.below(bytes.len() - 13));
            bytes.push(1);
        }
        self.put(time, feed, bytes);
    }

    /// Gives one to eight places.
    fn places(&mut self) -> u64 {
        PLACE * (1 + self.random.below(MOST_PLACES_LATE) as u64)
    }
}

/// Gives the packets that are lost on both feeds.
fn lost_on_both(shape: &Shape, random: &mut Random) -> BTreeSet<u32> {
    let packets = shape.packets.unwrap_or(0);
    let in_a_row = |first: u32| first..first + BURST_LENGTH;
    match shape.gaps {
        Gaps::Bursts(count) => {
            let span = packets / (count + 1);
            let mut first = |place| span * place + random.below(span as usize / 4 + 1) as u32;
            (1..=count).flat_map(|place| in_a_row(first(place))).collect()
        }
        Gaps::One(number) => BTreeSet::from([number]),
        Gaps::Spans(span) => (1..packets.div_ceil(span)).flat_map(|place| in_a_row(span * place + 1)).collect(),
    }
}

impl Iterator for Feeds {
    type Item = Arrival;

    fn next(&mut self) -> Option<Arrival> {
        loop {
            let Some(number) = self.next else {
                return self.waiting.pop().map(|Reverse(arrival)| arrival);
            };
            // Nothing that is sent from here on comes before this time.
            let is_due = |first: &Reverse<Arrival>| first.0.time < u64::from(number) * PLACE;
            if self.waiting.peek().is_some_and(is_due) {
                return self.waiting.pop().map(|Reverse(arrival)| arrival);
            }
            self.send(number);
            let last = self.shape.packets.unwrap_or(u32::MAX);
            self.next = number.checked_add(1).filter(|next| *next <= last);
        }
    }
}

#[cfg(test)]
mod tests {
    use super::*;
    use crate::market::Market;
    use crate::shape::Snapshots;
    use std::collections::BTreeMap;

    fn arrivals(preset: &str, change: impl FnOnce(&mut Shape)) -> Vec<Arrival> {
        let mut shape = Shape::of_preset(preset).unwrap();
        shape.packets = Some(3_000);
        change(&mut shape);
        Feeds::new(Packets::new(Market::new(&shape, 5)), shape, 5).collect()
    }

    /// Gives the first copy of each packet's number.
    fn first_copies(arrivals: &[Arrival]) -> BTreeMap<u32, &[u8]> {
        let mut copies = BTreeMap::new();
        for arrival in arrivals.iter().filter(|arrival| arrival.feed != Feed::S) {
            let number = u32::from_le_bytes(*arrival.bytes.first_chunk().unwrap());
            copies.entry(number).or_insert(arrival.bytes.as_slice());
        }
        copies
    }

    #[test]
    fn a_seed_gives_the_same_packets_whatever_is_lost() {
        let one = arrivals("lossy", |_| {});
        assert!(one == arrivals("lossy", |_| {}));
        let other = arrivals("lossy", |shape| (shape.lost, shape.late, shape.gaps) = (0, 0, Gaps::Bursts(0)));
        let (one, other) = (first_copies(&one), first_copies(&other));
        assert_eq!(other.len(), 3_000);
        assert_eq!(one.len(), 3_000 - 20 * BURST_LENGTH as usize);
        assert!(one.iter().all(|(number, bytes)| other[number] == *bytes));
    }

    #[test]
    fn both_feeds_lose_what_the_preset_says() {
        for (preset, wanted) in [
            ("one_leg", [].as_slice()),
            ("silent", &[1_000]),
            ("spread_bases", &[1_000]),
            ("snapshots", &[2_801, 2_802, 2_803]),
        ] {
            let copies = arrivals(preset, |_| {});
            let copies = first_copies(&copies);
            let lost: Vec<u32> = (1..=3_000).filter(|number| !copies.contains_key(number)).collect();
            assert_eq!(lost, wanted, "{preset}");
        }
        let lost = lost_on_both(&Shape::of_preset("snapshots").unwrap(), &mut Random::new(5, "feeds"));
        assert_eq!(lost.into_iter().step_by(3).collect::<Vec<u32>>(), [2_801, 5_601, 8_401, 11_201, 14_001, 16_801]);
    }

    #[test]
    fn snapshots_come_right_after_their_packet() {
        let is_soon = |snapshot: &Arrival, number: u32| {
            let sent = u64::from(number) * PLACE;
            (sent + PLACE * 9 / 10..sent + PLACE * 2).contains(&snapshot.time)
        };
        let snapshots = |arrivals: Vec<Arrival>| arrivals.into_iter().filter(|arrival| arrival.feed == Feed::S);
        // The number stands behind the headers of the packet and of its first message.
        let last = |snapshot: &Arrival| u32::from_le_bytes(*snapshot.bytes[22..].first_chunk().unwrap());
        let silent: Vec<Arrival> = snapshots(arrivals("silent", |_| {})).collect();
        assert_eq!(silent.len(), 6_000);
        assert!(silent.iter().all(|snapshot| is_soon(snapshot, last(snapshot))));
        let at_once = Snapshots::AtOnce { first: 20, apart: 3, after: 2_000 };
        let at_once: Vec<Arrival> = snapshots(arrivals("spread_bases", |shape| shape.snapshots = at_once)).collect();
        assert_eq!(at_once.len(), 512);
        assert!(at_once.iter().all(|snapshot| is_soon(snapshot, 2_000)));
    }

    #[test]
    fn arrivals_come_in_the_order_of_their_times() {
        let arrivals = arrivals("endless", |_| {});
        assert!(arrivals.is_sorted_by_key(|arrival| arrival.time));
        let count = |feed| arrivals.iter().filter(|arrival| arrival.feed == feed).count();
        assert_eq!(count(Feed::S), 3_000 / 64);
        assert!((2_950..3_030).contains(&count(Feed::A)) && (2_950..3_030).contains(&count(Feed::B)));
    }

    #[test]
    fn a_spoilt_copy_stands_beside_a_whole_one() {
        let spoilt = arrivals("day", |shape| (shape.spoilt, shape.late) = (1_000, 0));
        let whole = arrivals("day", |shape| shape.late = 0);
        let copies = |arrivals: &[Arrival]| -> BTreeMap<u32, Vec<Vec<u8>>> {
            let mut copies: BTreeMap<u32, Vec<Vec<u8>>> = BTreeMap::new();
            for arrival in arrivals {
                let number = u32::from_le_bytes(*arrival.bytes.first_chunk().unwrap());
                copies.entry(number).or_default().push(arrival.bytes.clone());
            }
            copies
        };
        let whole = copies(&whole);
        let mut changed = 0;
        for (number, copies) in copies(&spoilt) {
            assert!(copies.contains(&whole[&number][0]));
            changed += usize::from(copies.iter().any(|copy| *copy != whole[&number][0]));
        }
        assert!((200..400).contains(&changed), "{changed}");
    }
}
