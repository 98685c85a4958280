//! A whole capture in memory.

use crate::input::Input;
use crate::instruments::{Instrument, Listing};
use crate::lines::{CaptureRefusal, DATAGRAM_ROOM, LineReader, Skip, TEXT_SLACK, TakesRecords};
use crate::processor::{Work, quickly};
use crate::receiver::{Feed, Receiver};
use crate::shows::Shows;
use std::io::{self, Read};

/// What a record is.
#[derive(Clone, Copy, PartialEq, Eq, Debug)]
enum What {
    Datagram(Feed),
    /// A datagram with the bytes of the newest one of A or B.
    Repeat(Feed),
    Close,
}

#[derive(Clone, Copy)]
struct Record {
    /// Where its bytes begin.
    at: usize,
    line: u32,
    length: u16,
    what: What,
}

/// The records of a capture in the order of its lines, and the lines that were skipped.
#[derive(Default)]
pub struct Records {
    list: Vec<Record>,
    /// The bytes of all datagrams, each once where it was repeated at once.
    bytes: Vec<u8>,
    pub skipped: Vec<(u32, Skip)>,
}

impl TakesRecords for Records {
    #[inline(always)]
    fn room(&mut self) -> *mut u8 {
        if self.bytes.capacity() - self.bytes.len() < DATAGRAM_ROOM {
            self.bytes.reserve(DATAGRAM_ROOM);
        }
        unsafe { self.bytes.as_mut_ptr().add(self.bytes.len()) }
    }

    #[inline(always)]
    fn datagram(&mut self, feed: Feed, line: u32, length: usize) {
        let at = self.bytes.len();
        // Safety: the bytes stand in the place that was lent.
        unsafe { self.bytes.set_len(at + length) };
        self.list.push(Record { at, line, length: length as u16, what: What::Datagram(feed) });
    }

    #[inline(always)]
    fn repeat(&mut self, feed: Feed, line: u32) {
        self.list.push(Record { at: 0, line, length: 0, what: What::Repeat(feed) });
    }

    fn close(&mut self, line: u32) {
        self.list.push(Record { at: 0, line, length: 0, what: What::Close });
    }

    fn skipped(&mut self, line: u32, why: Skip) {
        self.skipped.push((line, why));
    }

    fn listed(&mut self, _instrument: &Instrument) {}
}

/// Why a capture can't be handled.
pub enum CaptureFault {
    Refused(CaptureRefusal),
    Input,
}

impl From<CaptureRefusal> for CaptureFault {
    fn from(refusal: CaptureRefusal) -> CaptureFault {
        CaptureFault::Refused(refusal)
    }
}

impl From<io::Error> for CaptureFault {
    fn from(_: io::Error) -> CaptureFault {
        CaptureFault::Input
    }
}

/// Reads a capture to its end. `size` is how long it is, or 0.
pub fn read_capture(reader: impl Read, size: usize) -> Result<(Listing, Records), CaptureFault> {
    // The bytes are half of the digits, and half of the digits are copies: what isn't used of this takes no memory.
    let records = Records { bytes: Vec::with_capacity(size / 2 + DATAGRAM_ROOM), ..Records::default() };
    let mut reading = Reading { input: Input::new(reader, TEXT_SLACK), lines: LineReader::default(), records };
    quickly(&mut reading)?;
    Ok((reading.lines.into_listing()?, reading.records))
}

struct Reading<R: Read> {
    input: Input<R>,
    lines: LineReader,
    records: Records,
}

impl<R: Read> Work for &mut Reading<R> {
    type Output = Result<(), CaptureFault>;

    #[inline(always)]
    fn run<const WIDE: bool>(self) -> Self::Output {
        while !self.input.is_over() {
            self.input.read_more()?;
            let is_last = self.input.is_over();
            let (text, end) = self.input.bytes();
            // Safety: the input has zeros behind it.
            let count = unsafe { self.lines.read::<WIDE>(text, end, is_last, &mut self.records)? };
            self.input.take(count);
        }
        Ok(())
    }
}

/// Handles all records, until nothing more can be shown.
pub fn handle<S: Shows>(records: &Records, receiver: &mut Receiver<S>) {
    quickly(Handling { records, receiver });
}

struct Handling<'a, S: Shows> {
    records: &'a Records,
    receiver: &'a mut Receiver<S>,
}

impl<S: Shows> Work for Handling<'_, S> {
    type Output = ();

    #[inline(always)]
    fn run<const WIDE: bool>(self) {
        let bytes = self.records.bytes.as_slice();
        for record in &self.records.list {
            match record.what {
                What::Repeat(feed) => self.receiver.repeat(feed, record.line.into()),
                What::Datagram(feed) => {
                    // Safety: a record's bytes are some of these.
                    let data = unsafe { bytes.get_unchecked(record.at..record.at + record.length as usize) };
                    self.receiver.datagram(feed, record.line.into(), data);
                    if self.receiver.shows().has_failed() {
                        return;
                    }
                }
                What::Close => self.receiver.close(),
            }
        }
    }
}
