//! The receiver of one channel: which packet passes, when recovery jumps, and what the books then are.

use crate::book::Fault;
use crate::desk::Desk;
use crate::instruments::Instrument;
use crate::processor::{Work, quickly};
use crate::refusal::Refusal;
use crate::shows::{Refused, Shows, Standing};
use crate::wire::{self, Entry, Hears, Snapshot};

/// The feeds of a channel.
#[derive(Clone, Copy, PartialEq, Eq, Debug)]
#[repr(u8)]
pub enum Feed {
    A,
    B,
    S,
}

impl Feed {
    pub const ALL: [Feed; 3] = [Feed::A, Feed::B, Feed::S];

    /// Gives the feed of a letter.
    pub fn of_letter(letter: u8) -> Option<Feed> {
        Feed::ALL.into_iter().find(|feed| feed.letter() == letter as char)
    }

    pub fn letter(self) -> char {
        match self {
            Feed::A => 'A',
            Feed::B => 'B',
            Feed::S => 'S',
        }
    }
}

/// How a receiver begins.
#[derive(Clone, Copy, PartialEq, Eq, Debug)]
pub struct Start {
    /// How many packets are kept ahead, 1 to 65,536.
    pub window: u32,
    /// Begins in the middle of a channel: no packet passes before a first jump.
    pub joins: bool,
}

/// A packet that came too early; number 0 where there is none.
#[derive(Clone, Default)]
struct Held {
    number: u32,
    data: Vec<u8>,
}

/// The newest snapshot of a security.
#[derive(Clone, Default)]
struct Newest {
    message: Vec<u8>,
    last: u32,
    is_there: bool,
}

impl Newest {
    fn snapshot(&self) -> Snapshot<'_> {
        // Safety: only accepted snapshots are kept, and a jump asks for them once all are there.
        unsafe { Snapshot::of_accepted(&self.message) }
    }
}

/// What a datagram made of the receiver, where that is worth a word.
#[derive(Clone, Copy, Default, PartialEq, Eq, Debug)]
pub struct News {
    /// It got lost: the packet that is given up, and the highest number that came.
    pub lost: Option<(u64, u64)>,
    /// It jumped, from one packet to another.
    pub found: Option<(u64, u64)>,
}

pub struct Receiver<S: Shows> {
    shows: S,
    desk: Desk,
    /// The number of the packet that passes next.
    next: u64,
    /// The first number that the window covers; more than `next` where packets were given up.
    first: u64,
    /// The highest number that was kept ahead; while packets are given up, the highest that came.
    highest: u64,
    window: u64,
    /// Packets ahead, each at its number's place; what lies below `first` is nobody's.
    ring: Vec<Held>,
    /// Packets were given up, or it joined, and no jump made up for that yet.
    is_lost: bool,
    newest: Vec<Newest>,
    /// The least number of all newest snapshots, if there is one of each security.
    least: Option<u64>,
    /// A snapshot came since `least` was looked for.
    is_least_old: bool,
    is_closed: bool,
    refused: [Vec<(u64, Refusal)>; 3],
    /// What the newest datagram of A or B was refused for.
    last_refusal: Option<Refusal>,
    news: News,
}

impl<S: Shows> Receiver<S> {
    pub fn new(instruments: &[Instrument], start: Start, shows: S) -> Receiver<S> {
        let places = (start.window as usize).next_power_of_two();
        Receiver {
            shows,
            desk: Desk::new(instruments),
            next: 1,
            first: 1,
            highest: 0,
            window: start.window.into(),
            ring: vec![Held::default(); places],
            is_lost: start.joins,
            newest: vec![Newest::default(); instruments.len()],
            least: None,
            is_least_old: false,
            is_closed: false,
            refused: Default::default(),
            last_refusal: None,
            news: News::default(),
        }
    }

    #[inline(always)]
    pub fn is_lost(&self) -> bool {
        self.is_lost
    }

    pub fn standing(&self) -> Standing {
        Standing { next: self.next, is_lost: self.is_lost() }
    }

    /// Tells how many packets wait for the next one.
    pub fn held(&self) -> usize {
        self.ring.iter().filter(|held| u64::from(held.number) >= self.first).count()
    }

    /// Gives the slot of the first security whose newest snapshot doesn't cover what is given up.
    pub fn first_stale(&self) -> Option<usize> {
        self.newest.iter().position(|newest| !newest.is_there || u64::from(newest.last) + self.window < self.highest)
    }

    /// Tells whether something became of the receiver that wasn't taken out.
    #[inline(always)]
    pub fn has_news(&self) -> bool {
        self.news.lost.is_some() | self.news.found.is_some()
    }

    /// Takes out what the datagrams since the last call made of the receiver.
    pub fn take_news(&mut self) -> News {
        std::mem::take(&mut self.news)
    }

    pub fn shows(&mut self) -> &mut S {
        &mut self.shows
    }

    /// Takes a datagram that came at a line or frame.
    #[inline(always)]
    pub fn datagram(&mut self, feed: Feed, place: u64, data: &[u8]) {
        match feed {
            Feed::A | Feed::B => self.packet(feed, place, data),
            Feed::S => self.snapshots(place, data),
        }
    }

    /// Takes a datagram of feed A or B.
    #[inline(always)]
    fn packet(&mut self, feed: Feed, place: u64, data: &[u8]) {
        self.last_refusal = None;
        let number = match wire::check_packet(data) {
            Ok(number) => u64::from(number),
            Err(refusal) => {
                self.last_refusal = Some(refusal);
                return self.refuse(feed, place, refusal);
            }
        };
        if self.is_closed {
            return;
        }
        if number == self.next && !self.is_lost() {
            // Safety: the datagram was accepted.
            unsafe { self.pass(data) };
        } else if number >= self.first {
            self.keep(number, data);
        } else {
            return;
        }
        if self.is_lost() || self.number_at(self.place_of(self.next)) == self.next {
            quickly(GoOn { receiver: self });
        }
    }

    /// Takes a datagram of feed A or B that has the bytes of the newest one of A or B.
    #[inline(always)]
    pub fn repeat(&mut self, feed: Feed, place: u64) {
        // A copy of a packet that came is dropped, whatever became of the packet.
        if let Some(refusal) = self.last_refusal {
            self.refuse(feed, place, refusal);
        }
    }

    /// Takes a datagram of feed S.
    #[inline(never)]
    fn snapshots(&mut self, place: u64, data: &[u8]) {
        if let Err(refusal) = wire::check_snapshots(data) {
            return self.refuse(Feed::S, place, refusal);
        }
        if self.is_closed {
            return;
        }
        // Safety: the datagram was accepted.
        for snapshot in unsafe { wire::snapshots(data) } {
            if self.note(snapshot) && self.is_lost() {
                quickly(GoOn { receiver: self });
            }
        }
    }

    /// Keeps a snapshot of a listed security, and tells whether it was newer than the one before.
    fn note(&mut self, snapshot: Snapshot<'_>) -> bool {
        let Some(slot) = self.desk.slot_of(snapshot.security()) else {
            return false;
        };
        let newest = &mut self.newest[slot];
        if newest.is_there && snapshot.last() <= newest.last {
            return false;
        }
        newest.message.clear();
        newest.message.extend_from_slice(snapshot.bytes());
        newest.last = snapshot.last();
        newest.is_there = true;
        self.is_least_old = true;
        true
    }

    /// Closes the channel: no packet and no snapshot counts that comes after it.
    pub fn close(&mut self) {
        self.is_closed = true;
    }

    #[cold]
    #[inline(never)]
    fn refuse(&mut self, feed: Feed, place: u64, refusal: Refusal) {
        self.refused[feed as usize].push((place, refusal));
    }

    #[inline(always)]
    fn place_of(&self, number: u64) -> usize {
        number as usize & (self.ring.len() - 1)
    }

    /// Gives the number of the packet that is kept at a place of the window.
    #[inline(always)]
    fn number_at(&self, place: usize) -> u64 {
        // Safety: a place is below the length, which is a power of two.
        u64::from(unsafe { self.ring.get_unchecked(place) }.number)
    }

    /// Lets a packet pass.
    ///
    /// # Safety
    /// The datagram was accepted.
    #[inline(always)]
    unsafe fn pass(&mut self, data: &[u8]) {
        let packet = self.next as u32;
        self.next += 1;
        self.first = self.next;
        unsafe { wire::walk_packet(data, &mut Passing { desk: &mut self.desk, shows: &mut self.shows, packet }) };
    }

    /// Keeps a packet ahead, unless one of its number waits. A far one moves the window.
    #[inline(never)]
    fn keep(&mut self, number: u64, data: &[u8]) {
        let place = self.place_of(number);
        let held = &mut self.ring[place];
        if u64::from(held.number) == number {
            return;
        }
        held.number = number as u32;
        held.data.clear();
        held.data.extend_from_slice(data);
        self.highest = self.highest.max(number);
        if number >= self.first + self.window {
            self.first = number + 1 - self.window;
            if !self.is_lost {
                self.is_lost = true;
                self.news.lost = Some((self.next, number));
            }
        }
    }

    /// Jumps, if each listed security has a snapshot that leaves out no packet that is given up.
    #[cold]
    #[inline(never)]
    fn jump(&mut self) -> bool {
        if self.is_least_old {
            self.is_least_old = false;
            let lasts = self.newest.iter().map(|newest| newest.is_there.then_some(u64::from(newest.last)));
            self.least = lasts.min().flatten();
        }
        let Some(least) = self.least.filter(|least| least + self.window >= self.highest) else {
            return false;
        };
        let old = self.next;
        self.next = least + 1;
        self.first = self.first.max(self.next);
        self.is_lost = false;
        let snapshots = self.newest.iter().map(Newest::snapshot);
        if S::TEXT {
            self.desk.rebase::<true>(snapshots);
        } else {
            self.desk.rebase::<false>(snapshots);
        }
        self.shows.jump(old, self.next);
        self.news.found = Some((old, self.next));
        true
    }

    /// Takes each step that is possible: a jump, and the packets that wait.
    #[inline(always)]
    fn go_on(&mut self) {
        if self.is_lost() && !self.jump() {
            return;
        }
        loop {
            let place = self.place_of(self.next);
            if self.number_at(place) != self.next {
                return;
            }
            let data = std::mem::take(&mut self.ring[place].data);
            // Safety: only accepted datagrams are kept.
            unsafe { self.pass(&data) };
            self.ring[place].data = data;
        }
    }

    /// Shows the end of the run.
    pub fn put_end(&mut self) {
        let standing = self.standing();
        let mut refused = Feed::ALL.into_iter().zip(&self.refused).flat_map(|(feed, list)| {
            list.iter().map(move |&(place, refusal)| Refused { feed: feed.letter(), place, refusal })
        });
        self.shows.end(&mut refused, standing);
    }

    /// Ends the run, and gives back what showed it.
    pub fn end(mut self) -> S {
        self.put_end();
        self.shows
    }

    /// Gives back what showed the run, without its end.
    pub fn into_shows(self) -> S {
        self.shows
    }
}

/// A packet that passes, on its way to the books and to what shows them.
struct Passing<'a, S: Shows> {
    desk: &'a mut Desk,
    shows: &'a mut S,
    packet: u32,
}

impl<S: Shows> Hears for Passing<'_, S> {
    #[inline(always)]
    fn entry(&mut self, message: u32, place: u32, entry: Entry) {
        let place = Fault { packet: self.packet, message, entry: place };
        // Safety: only packets pass that were accepted.
        unsafe {
            if S::TEXT {
                self.desk.hear::<true>(&entry, place);
            } else {
                self.desk.hear::<false>(&entry, place);
            }
        }
    }

    #[inline(always)]
    fn event_end(&mut self, message: u32) {
        self.shows.event_end(self.desk, self.packet, message);
    }
}

/// The steps that a datagram made possible.
struct GoOn<'a, S: Shows> {
    receiver: &'a mut Receiver<S>,
}

impl<S: Shows> Work for GoOn<'_, S> {
    type Output = ();

    #[inline(always)]
    fn run<const WIDE: bool>(self) {
        self.receiver.go_on();
    }
}
