//! Records of a capture, handled as they come.

use crate::input::Input;
use crate::instruments::{Instrument, Listing};
use crate::lines::{DATAGRAM_ROOM, LineReader, Skip, TEXT_SLACK, TakesRecords};
use crate::notes::Notes;
use crate::processor::{Work, quickly};
use crate::receiver::{Feed, Receiver, Start};
use crate::records::CaptureFault;
use crate::shows::{BooksAlone, Printer, Shows};
use std::io::{Read, Write};

/// Makes what shows the books, once the instruments are known.
pub trait MakesShows {
    type Shows: Shows;

    fn shows(&mut self, instruments: &[Instrument]) -> Self::Shows;

    /// Writes what is held back.
    fn flush(shows: &mut Self::Shows);
}

/// Prints to a writer.
pub struct MakesPrinter<W>(pub W);

impl<W: Write + Clone> MakesShows for MakesPrinter<W> {
    type Shows = Printer<W>;

    fn shows(&mut self, instruments: &[Instrument]) -> Printer<W> {
        Printer::new(instruments, self.0.clone())
    }

    fn flush(shows: &mut Printer<W>) {
        shows.output.flush();
    }
}

/// Keeps the books alone.
pub struct MakesBooks;

impl MakesShows for MakesBooks {
    type Shows = BooksAlone;

    fn shows(&mut self, _instruments: &[Instrument]) -> BooksAlone {
        BooksAlone::default()
    }

    fn flush(_shows: &mut BooksAlone) {}
}

/// What handles each record of a capture as its line is read.
struct Handler<M: MakesShows> {
    makes: M,
    start: Start,
    notes: Notes,
    instruments: Vec<Instrument>,
    receiver: Option<Receiver<M::Shows>>,
    bytes: Vec<u8>,
}

impl<M: MakesShows> Handler<M> {
    /// Gives the receiver, which begins with the first record; none where no instrument is listed above it.
    #[inline(always)]
    fn receiver(&mut self) -> Option<&mut Receiver<M::Shows>> {
        if self.receiver.is_none() && !self.instruments.is_empty() {
            let shows = self.makes.shows(&self.instruments);
            self.receiver = Some(Receiver::new(&self.instruments, self.start, shows));
        }
        self.receiver.as_mut()
    }
}

impl<M: MakesShows> TakesRecords for Handler<M> {
    #[inline(always)]
    fn room(&mut self) -> *mut u8 {
        self.bytes.as_mut_ptr()
    }

    #[inline(always)]
    fn datagram(&mut self, feed: Feed, line: u32, length: usize) {
        self.receiver();
        if let Some(receiver) = &mut self.receiver {
            receiver.datagram(feed, line.into(), &self.bytes[..length]);
            self.notes.tell_news(receiver, "line", line.into());
        }
    }

    #[inline(always)]
    fn repeat(&mut self, feed: Feed, line: u32) {
        if let Some(receiver) = &mut self.receiver {
            receiver.repeat(feed, line.into());
        }
    }

    fn close(&mut self, _line: u32) {
        if let Some(receiver) = self.receiver() {
            receiver.close();
        }
    }

    fn skipped(&mut self, line: u32, why: Skip) {
        self.notes.tell(&format!("line {line}: {}", why.told()));
    }

    fn listed(&mut self, instrument: &Instrument) {
        self.instruments.push(instrument.clone());
    }
}

struct Running<R: Read, M: MakesShows> {
    input: Input<R>,
    lines: LineReader,
    handler: Handler<M>,
}

impl<R: Read, M: MakesShows> Work for &mut Running<R, M> {
    type Output = Result<(), CaptureFault>;

    #[inline(always)]
    fn run<const WIDE: bool>(self) -> Self::Output {
        while !self.input.is_over() {
            self.input.read_more()?;
            let is_last = self.input.is_over();
            let (text, end) = self.input.bytes();
            // Safety: the input has zeros behind it.
            let count = unsafe { self.lines.read::<WIDE>(text, end, is_last, &mut self.handler)? };
            self.input.take(count);
            if let Some(receiver) = &mut self.handler.receiver {
                M::flush(receiver.shows());
                if receiver.shows().has_failed() {
                    break;
                }
            }
        }
        Ok(())
    }
}

/// Handles a capture as it comes. What was shown before a fault comes with it.
pub fn run_capture<R: Read, M: MakesShows>(
    reader: R,
    start: Start,
    makes: M,
    notes: Notes,
) -> (Result<Listing, CaptureFault>, Option<Receiver<M::Shows>>) {
    let handler =
        Handler { makes, start, notes, instruments: Vec::new(), receiver: None, bytes: vec![0; DATAGRAM_ROOM] };
    let mut running = Running { input: Input::new(reader, TEXT_SLACK), lines: LineReader::default(), handler };
    let outcome = quickly(&mut running);
    if let Some(receiver) = &mut running.handler.receiver {
        M::flush(receiver.shows());
    }
    // A capture without a record has a run too, which prints its last line.
    if outcome.is_ok() {
        running.handler.receiver();
    }
    let listing = outcome.and_then(|()| running.lines.into_listing().map_err(CaptureFault::from));
    (listing, running.handler.receiver)
}
