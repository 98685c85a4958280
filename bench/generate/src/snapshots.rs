//! The feed of snapshots: which securities send theirs after which packet.

use crate::packets::Packets;
use crate::random::Random;
use crate::shape::Snapshots;
use std::collections::VecDeque;

/// How many datagrams are kept to come again.
const MOST_KEPT: usize = 1_000;

/// Makes the datagrams of the feed.
pub struct SnapshotFeed {
    snapshots: Snapshots,
    /// The security whose snapshot comes next.
    turn: usize,
    /// Datagrams that come again, or that come later; the oldest one first.
    kept: VecDeque<Vec<u8>>,
}

impl SnapshotFeed {
    pub fn new(snapshots: Snapshots) -> SnapshotFeed {
        SnapshotFeed { snapshots, turn: 0, kept: VecDeque::new() }
    }

    /// Gives the datagrams that follow a packet, which is the newest one that was made.
    pub fn after_packet(&mut self, number: u32, packets: &Packets, random: &mut Random) -> Vec<Vec<u8>> {
        let count = packets.market.list.len();
        match self.snapshots {
            // No number but 0 is a multiple of 0.
            Snapshots::Every(many) if number.is_multiple_of(many) => {
                vec![packets.snapshots(&[self.take_turn(count)], number)]
            }
            Snapshots::Every(_) => Vec::new(),
            Snapshots::ButTheLast => (0..2).map(|_| packets.snapshots(&[self.take_turn(count - 1)], number)).collect(),
            Snapshots::NewAndOld { slow, span, pause } => {
                let (place, past) = ((number - 1) / span, (number - 1) % span);
                let left_out = (place % 2 == 1 && past < pause).then_some(slow);
                (0..2).flat_map(|_| self.new_and_old(number, left_out, packets, random)).collect()
            }
            Snapshots::AtOnce { first, apart, after } => {
                if self.turn < count && number >= first && (number - first).is_multiple_of(apart) {
                    self.kept.push_back(packets.snapshots(&[self.turn], number));
                    self.turn += 1;
                }
                if number == after { self.kept.drain(..).collect() } else { Vec::new() }
            }
        }
    }

    /// Gives the security whose turn it is, of the first so many.
    fn take_turn(&mut self, count: usize) -> usize {
        let security = self.turn;
        self.turn = (security + 1) % count;
        security
    }

    /// Makes a datagram of the securities whose turn it is, and gives it with one that was made before.
    fn new_and_old(
        &mut self,
        number: u32,
        left_out: Option<usize>,
        packets: &Packets,
        random: &mut Random,
    ) -> [Vec<u8>; 2] {
        const HOW_MANY: [u32; 3] = [69, 18, 13];
        let mut securities = Vec::new();
        for _ in 0..=random.pick(&HOW_MANY) {
            let count = packets.market.list.len();
            let mut security = self.take_turn(count);
            if Some(security) == left_out {
                security = self.take_turn(count);
            }
            securities.push(security);
        }
        let new = packets.snapshots(&securities, number);
        if self.kept.len() == MOST_KEPT {
            self.kept.pop_front();
        }
        self.kept.push_back(new.clone());
        // Once enough are kept, all securities but one that is left out have sent newer snapshots since the older six
        // tenths were made.
        let old = self.kept[random.below((self.kept.len() * 6).div_ceil(10))].clone();
        [new, old]
    }
}

#[cfg(test)]
mod tests {
    use super::*;
    use crate::market::Market;
    use crate::shape::Shape;
    use std::collections::BTreeMap;

    /// The securities of a datagram, and after which packet their books are so.
    type Snapshot = (i32, u32);

    fn read(datagram: &[u8]) -> Vec<Snapshot> {
        let mut snapshots = Vec::new();
        let mut rest = &datagram[12..];
        while let Some((size, _)) = rest.split_first_chunk() {
            let (message, next) = rest.split_at(u16::from_le_bytes(*size).into());
            let number = |at: usize| *message[at..].first_chunk().unwrap();
            snapshots.push((i32::from_le_bytes(number(18)), u32::from_le_bytes(number(10))));
            rest = next;
        }
        snapshots
    }

    /// Gives the ids of a preset's securities, and what its datagrams bring after each of so many packets, from 1 on.
    fn sent(preset: &str, packets: u32, change: impl FnOnce(&mut Shape)) -> (Vec<i32>, Vec<Vec<Vec<Snapshot>>>) {
        let mut shape = Shape::of_preset(preset).unwrap();
        change(&mut shape);
        let mut made = Packets::new(Market::new(&shape, 5));
        let mut feed = SnapshotFeed::new(shape.snapshots);
        let mut random = Random::new(5, "test");
        let sent = (1..=packets).map(|number| {
            made.packet(number);
            feed.after_packet(number, &made, &mut random).iter().map(|datagram| read(datagram)).collect()
        });
        let sent = sent.collect();
        (made.market.list.iter().map(|security| security.id).collect(), sent)
    }

    #[test]
    fn all_securities_but_the_last_one_send_news() {
        let (ids, sent) = sent("silent", 700, |_| {});
        let mut turns = ids[..511].iter().cycle();
        for (number, datagrams) in (1..).zip(sent) {
            let wanted: Vec<Vec<Snapshot>> = turns.by_ref().take(2).map(|id| vec![(*id, number)]).collect();
            assert_eq!(datagrams, wanted);
        }
    }

    #[test]
    fn every_other_datagram_is_older_than_what_is_known() {
        let (_, sent) = sent("snapshots", 1_500, |_| {});
        let mut known = BTreeMap::new();
        for (number, datagrams) in (1..).zip(sent) {
            let [new, old, newer, older] = datagrams.try_into().unwrap();
            for (new, old) in [(new, old), (newer, older)] {
                assert!(new.iter().all(|(_, last)| *last == number));
                known.extend(new);
                // The first datagrams that come again may be the newest ones of their securities.
                let most = |id: i32| known[&id] - u32::from(number > 500);
                assert!(old.iter().all(|&(id, last)| last <= most(id)), "{number}");
            }
        }
        assert_eq!(known.len(), 512);
    }

    #[test]
    fn a_slow_security_waits_in_every_other_span() {
        let (slow, span, pause) = (300, 700, 400);
        let change = |shape: &mut Shape| shape.snapshots = Snapshots::NewAndOld { slow, span, pause };
        let (ids, sent) = sent("snapshots", 2 * span, change);
        let of_security = |place: usize| {
            let id = ids[place];
            let lasts = sent.iter().flatten().flatten().filter(|snapshot| snapshot.0 == id).map(|snapshot| snapshot.1);
            lasts.collect::<Vec<u32>>()
        };
        let waits = span + 1..=span + pause;
        assert!(of_security(slow).iter().all(|last| !waits.contains(last)));
        assert!(of_security(slow).iter().any(|last| last < waits.start()));
        assert!(of_security(slow).iter().any(|last| last > waits.end()));
        assert!(of_security(slow + 1).iter().any(|last| waits.contains(last)));
    }

    #[test]
    fn snapshots_of_different_ages_come_at_once() {
        let (first, apart, after) = (30, 2, 1_100);
        let change = |shape: &mut Shape| shape.snapshots = Snapshots::AtOnce { first, apart, after };
        let (ids, sent) = sent("spread_bases", 1_200, change);
        let wanted: Vec<Vec<Snapshot>> =
            ids.into_iter().zip((first..).step_by(apart as usize)).map(|snapshot| vec![snapshot]).collect();
        for (number, datagrams) in (1..).zip(sent) {
            assert_eq!(datagrams, if number == after { wanted.as_slice() } else { &[] });
        }
    }
}
