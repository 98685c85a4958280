//! A channel that is read from the frames of a file.

use crate::channel::FeedAddresses;
use crate::frame::{Frame, frame_of};
use crate::input::Input;
use crate::instruments::Instrument;
use crate::lines::MOST_BYTES;
use crate::live::MakesShows;
use crate::notes::Notes;
use crate::pcap_file::{Captured, FrameFinder, Next, PcapFault};
use crate::processor::{Work, quickly};
use crate::receiver::{Feed, Receiver, Start};
use crate::same::are_same;
use crate::shows::Shows;
use std::io::Read;

/// A channel that is read from frames.
struct Running<'a, R: Read, S: Shows> {
    input: Input<R>,
    addresses: &'a FeedAddresses,
    receiver: Receiver<S>,
    flush: fn(&mut S),
    notes: Notes,
    finder: FrameFinder,
    has_told_cut: bool,
}

/// The newest payload of A or B in the bytes at hand.
type Before<'a> = &'a [u8];

impl<R: Read, S: Shows> Running<'_, R, S> {
    /// Reads the whole frames of the bytes at hand, and tells how many bytes they are.
    #[inline(always)]
    fn read_frames<const WIDE: bool>(&mut self) -> Result<usize, PcapFault> {
        let (buffer, end) = self.input.bytes();
        // Safety: the input doesn't change while frames are handled.
        let bytes: &[u8] = unsafe { std::slice::from_raw_parts(buffer.as_ptr(), end) };
        let mut at = 0;
        let mut before: Before = &[];
        loop {
            match self.finder.next(&bytes[at..])? {
                Next::Frame(Captured { link, bytes, original }, length) => {
                    self.take::<WIDE>(frame_of(link, bytes, original), &mut before);
                    at += length;
                }
                Next::Other(length) => at += length,
                Next::More => return Ok(at),
            }
        }
    }

    #[inline(always)]
    fn take<'a, const WIDE: bool>(&mut self, frame: Frame<'a>, before: &mut Before<'a>) {
        match frame {
            Frame::Datagram(address, payload) => {
                let Some(feed) = self.addresses.feed_at(address) else {
                    return;
                };
                if payload.len() > MOST_BYTES {
                    return self.notes.tell(&format!("frame {}: 23 TooLong", self.finder.frames()));
                }
                let is_incremental = feed != Feed::S;
                // Safety: both have this length.
                let is_same = payload.len() == before.len()
                    && unsafe { are_same::<WIDE>(payload.as_ptr(), before.as_ptr(), payload.len()) };
                if is_incremental && !payload.is_empty() && is_same {
                    return self.receiver.repeat(feed, self.finder.frames());
                }
                self.receiver.datagram(feed, self.finder.frames(), payload);
                self.notes.tell_news(&mut self.receiver, "frame", self.finder.frames());
                if is_incremental {
                    *before = payload;
                }
            }
            Frame::Other => {}
            _ => self.tell_left_out(frame),
        }
    }

    /// Tells that a frame of a feed is left out, and why.
    #[cold]
    #[inline(never)]
    fn tell_left_out(&mut self, frame: Frame<'_>) {
        let number = self.finder.frames();
        match frame {
            Frame::Cut(address) => {
                if let Some(feed) = self.addresses.feed_at(address) {
                    self.notes.tell(&format!("frame {number}: 55 FrameCut {}", feed.letter()));
                }
            }
            Frame::Broken(address) => {
                if let Some(feed) = self.addresses.feed_at(address) {
                    self.notes.tell(&format!("frame {number}: 57 FrameBroken {}", feed.letter()));
                }
            }
            Frame::CutBeforeGroup => self.tell_cut_headers(),
            Frame::CutBeforePort(group) if self.addresses.feeds_of_group(group).0.is_some() => self.tell_cut_headers(),
            Frame::Fragment(group) => match self.addresses.feeds_of_group(group) {
                (None, _) => {}
                (_, true) => self.notes.tell(&format!("frame {number}: 56 Fragment -")),
                (Some(feed), false) => self.notes.tell(&format!("frame {number}: 56 Fragment {}", feed.letter())),
            },
            _ => {}
        }
    }

    /// Tells once that of a frame, which may be a feed's, the group or the port was cut away.
    fn tell_cut_headers(&mut self) {
        if !self.has_told_cut {
            self.has_told_cut = true;
            self.notes.tell(&format!("frame {}: 55 FrameCut -", self.finder.frames()));
        }
    }
}

impl<R: Read, S: Shows> Work for &mut Running<'_, R, S> {
    type Output = Result<(), PcapFault>;

    #[inline(always)]
    fn run<const WIDE: bool>(self) -> Self::Output {
        while !self.input.is_over() {
            self.input.read_more().map_err(|_| PcapFault::Input)?;
            let count = self.read_frames::<WIDE>()?;
            self.input.take(count);
            (self.flush)(self.receiver.shows());
            if self.receiver.shows().has_failed() {
                return Ok(());
            }
        }
        self.finder.end(self.input.bytes().1)
    }
}

/// Handles a pcap file as it comes. What was shown before a fault comes with it.
pub fn run_pcap<R: Read, M: MakesShows>(
    reader: R,
    instruments: &[Instrument],
    addresses: &FeedAddresses,
    start: Start,
    mut makes: M,
    notes: Notes,
) -> (Result<(), PcapFault>, Receiver<M::Shows>) {
    let receiver = Receiver::new(instruments, start, makes.shows(instruments));
    let mut running = Running {
        input: Input::new(reader, 0),
        addresses,
        receiver,
        flush: M::flush,
        notes,
        finder: FrameFinder::default(),
        has_told_cut: false,
    };
    let outcome = quickly(&mut running);
    (M::flush)(running.receiver.shows());
    (outcome, running.receiver)
}
