//! A capture's text, cut into lines as it comes, and what each line says.

use crate::hex;
use crate::instruments::{Instrument, ListRefusal, Listing, instrument_of};
use crate::receiver::Feed;
use crate::same::are_same;

/// The most bytes of a datagram.
pub const MOST_BYTES: usize = 2048;

/// How many bytes a datagram's place must have room for, with what is written after it.
pub const DATAGRAM_ROOM: usize = MOST_BYTES + 1 + hex::SLACK;

/// How many bytes must be readable after the text's end, none of them a digit.
pub const TEXT_SLACK: usize = 2 * hex::SLACK;

/// Why a line is skipped.
#[derive(Clone, Copy, PartialEq, Eq, Debug)]
#[repr(u8)]
pub enum Skip {
    LineForm = 21,
    Hex,
    TooLong,
}

impl Skip {
    /// Gives the number and the name that are told.
    pub fn told(self) -> String {
        format!("{} {self:?}", self as u8)
    }
}

/// A capture that is refused, and at which line.
#[derive(Clone, Copy, PartialEq, Eq, Debug)]
pub struct CaptureRefusal {
    pub line: u32,
    pub why: ListRefusal,
}

impl CaptureRefusal {
    /// Gives what is told.
    pub fn told(self) -> String {
        match self.line {
            0 => self.why.told(),
            line => format!("line {line}: {}", self.why.told()),
        }
    }
}

/// What takes the records of a capture.
pub trait TakesRecords {
    /// Lends a place for the bytes of the next datagram, with `DATAGRAM_ROOM` bytes.
    fn room(&mut self) -> *mut u8;

    /// Takes a datagram, whose bytes stand in the place that was lent last.
    fn datagram(&mut self, feed: Feed, line: u32, length: usize);

    /// Takes a datagram of A or B that has the bytes of the newest one of A or B.
    fn repeat(&mut self, feed: Feed, line: u32);

    /// Takes the close of the channel.
    fn close(&mut self, line: u32);

    /// Hears that a line is skipped.
    fn skipped(&mut self, line: u32, why: Skip);

    /// Hears that an instrument is listed.
    fn listed(&mut self, instrument: &Instrument);
}

/// The newest datagram's line of A or B in the text at hand: where its digits begin, and how long they are with the
/// end of the line.
#[derive(Clone, Copy)]
struct Before {
    digits: usize,
    length: usize,
}

impl Before {
    const NONE: Before = Before { digits: 0, length: usize::MAX / 2 };
}

/// Gives the feed of a line that begins as a datagram's does.
///
/// # Safety
/// Two bytes are readable.
#[inline(always)]
unsafe fn feed_at(at: *const u8) -> Option<Feed> {
    match unsafe { (*at, *at.add(1)) } {
        (b'A', b' ') => Some(Feed::A),
        (b'B', b' ') => Some(Feed::B),
        (b'S', b' ') => Some(Feed::S),
        _ => None,
    }
}

/// Gives the length of a line's end, if one stands there.
///
/// # Safety
/// Two bytes are readable.
#[inline(always)]
unsafe fn line_end_at(at: *const u8) -> Option<usize> {
    match unsafe { (*at, *at.add(1)) } {
        (b'\n', _) => Some(1),
        (b'\r', b'\n') => Some(2),
        _ => None,
    }
}

/// Reads lines.
#[derive(Default)]
pub struct LineReader {
    listing: Listing,
    has_record: bool,
    /// The number of the line that was read last; it stays at the greatest number once it is there.
    line: u32,
}

impl LineReader {
    /// Gives the instruments that were listed.
    pub fn into_listing(self) -> Result<Listing, CaptureRefusal> {
        if self.listing.is_empty() {
            return Err(CaptureRefusal { line: 0, why: ListRefusal::None });
        }
        Ok(self.listing)
    }

    /// Reads the whole lines of `text[..end]`, and the last one too where it is the end of the text. Tells how many
    /// bytes were read.
    ///
    /// # Safety
    /// Behind `end` stand `TEXT_SLACK` bytes that are no digits. `WIDE` as of `hex::decode`.
    #[inline(always)]
    pub unsafe fn read<const WIDE: bool>(
        &mut self,
        text: &[u8],
        end: usize,
        is_last: bool,
        records: &mut impl TakesRecords,
    ) -> Result<usize, CaptureRefusal> {
        let mut at = 0;
        let mut before = Before::NONE;
        while at < end {
            let quick = unsafe { self.read_quickly::<WIDE>(text, end, at, &mut before, records) };
            at = match quick {
                Some(next) => next,
                None => {
                    // What is read slowly may be the newest datagram, and isn't kept.
                    before = Before::NONE;
                    match self.read_slowly(&text[..end], at, is_last, records)? {
                        Some(next) => next,
                        None => break,
                    }
                }
            };
        }
        Ok(at)
    }

    /// Reads a line that is a plain datagram, and gives the place after it; else takes nothing.
    #[inline(always)]
    unsafe fn read_quickly<const WIDE: bool>(
        &mut self,
        text: &[u8],
        end: usize,
        at: usize,
        before: &mut Before,
        records: &mut impl TakesRecords,
    ) -> Option<usize> {
        unsafe {
            let start = text.as_ptr();
            let feed = feed_at(start.add(at))?;
            let digits = at + 2;
            if feed != Feed::S && before.length <= end - at - 2 {
                let length = before.length;
                if are_same::<WIDE>(start.add(before.digits), start.add(digits), length) {
                    self.count_record();
                    records.repeat(feed, self.line);
                    before.digits = digits;
                    return Some(digits + length);
                }
            }
            let count = hex::decode::<WIDE>(start.add(digits), records.room(), 2 * MOST_BYTES + 2);
            if count == 0 || count % 2 == 1 || count > 2 * MOST_BYTES {
                return None;
            }
            let after = digits + count;
            let next = after + line_end_at(start.add(after))?;
            self.count_record();
            records.datagram(feed, self.line, count / 2);
            if feed != Feed::S {
                *before = Before { digits, length: next - digits };
            }
            Some(next)
        }
    }

    #[inline(always)]
    fn count_record(&mut self) {
        self.line = self.line.saturating_add(1);
        self.has_record = true;
    }

    /// Reads any line, and gives the place after it; nothing where it isn't whole.
    #[cold]
    #[inline(never)]
    fn read_slowly(
        &mut self,
        text: &[u8],
        at: usize,
        is_last: bool,
        records: &mut impl TakesRecords,
    ) -> Result<Option<usize>, CaptureRefusal> {
        let rest = &text[at..];
        let (line, next) = match rest.iter().position(|&byte| byte == b'\n') {
            Some(length) => (rest[..length].strip_suffix(b"\r").unwrap_or(&rest[..length]), at + length + 1),
            None if is_last => (rest, text.len()),
            None => return Ok(None),
        };
        self.line = self.line.saturating_add(1);
        if !line.is_empty() {
            self.read_line(line, records)?;
        }
        Ok(Some(next))
    }

    /// Reads a line that isn't empty, without its end.
    fn read_line(&mut self, line: &[u8], records: &mut impl TakesRecords) -> Result<(), CaptureRefusal> {
        let fields: Vec<&[u8]> = line.split(|&byte| byte == b' ').take(8).collect();
        let skip = match *fields {
            [b"X"] => {
                self.has_record = true;
                records.close(self.line);
                None
            }
            [b"A" | b"B" | b"S", digits] if !digits.is_empty() => {
                self.read_datagram(fields[0][0], digits, records).err()
            }
            [b"I", ref rest @ ..] => match instrument_of(rest) {
                Some(instrument) => return self.list(instrument, records),
                None => Some(Skip::LineForm),
            },
            _ => Some(Skip::LineForm),
        };
        if let Some(why) = skip {
            records.skipped(self.line, why);
        }
        Ok(())
    }

    fn read_datagram(&mut self, letter: u8, digits: &[u8], records: &mut impl TakesRecords) -> Result<(), Skip> {
        let feed = Feed::of_letter(letter).ok_or(Skip::LineForm)?;
        let mut bytes = Vec::new();
        if !hex::decode_field(digits, &mut bytes) {
            return Err(Skip::Hex);
        }
        if bytes.len() > MOST_BYTES {
            return Err(Skip::TooLong);
        }
        // Safety: the place that is lent has room for the longest datagram.
        unsafe { std::ptr::copy_nonoverlapping(bytes.as_ptr(), records.room(), bytes.len()) };
        self.has_record = true;
        records.datagram(feed, self.line, bytes.len());
        Ok(())
    }

    fn list(&mut self, instrument: Instrument, records: &mut impl TakesRecords) -> Result<(), CaptureRefusal> {
        let refused = |why| CaptureRefusal { line: self.line, why };
        if self.has_record {
            return Err(refused(ListRefusal::InstrumentLate));
        }
        self.listing.add(instrument.clone()).map_err(refused)?;
        records.listed(&instrument);
        Ok(())
    }
}
