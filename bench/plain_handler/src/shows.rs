//! What is shown of the books at event ends: their text, or nothing but their quotes.

use crate::audits::Audits;
use crate::book::BOOK_ROOM;
use crate::decimal::put_number;
use crate::desk::Desk;
use crate::instruments::Instrument;
use crate::output::{Output, ROOM};
use crate::pieces::Piece;
use crate::refusal::Refusal;
use std::io::Write;

/// The end of a run: what its last line tells.
#[derive(Clone, Copy, PartialEq, Eq, Debug)]
pub struct Standing {
    /// The number of the packet that would come next.
    pub next: u64,
    pub is_lost: bool,
}

/// A datagram that was refused, by its line or frame.
#[derive(Clone, Copy, PartialEq, Eq, Debug)]
pub struct Refused {
    pub feed: char,
    pub place: u64,
    pub refusal: Refusal,
}

/// Shows what becomes of the books.
pub trait Shows {
    /// Whether levels keep their text.
    const TEXT: bool;

    /// Shows the books that are due at the event end of a message.
    fn event_end(&mut self, desk: &mut Desk, packet: u32, message: u32);

    /// Shows that recovery jumped from one packet to another.
    fn jump(&mut self, old: u64, new: u64);

    /// Shows the refused datagrams and the end of the run.
    fn end(&mut self, refused: &mut dyn Iterator<Item = Refused>, standing: Standing);

    /// Tells whether nothing more can be shown.
    fn has_failed(&self) -> bool;
}

/// Prints the lines of the books and of the audits.
pub struct Printer<W: Write> {
    pub output: Output<W>,
    audits: Audits,
    /// Name and ` B` of each security.
    titles: Vec<Piece>,
}

impl<W: Write> Printer<W> {
    pub fn new(instruments: &[Instrument], writer: W) -> Printer<W> {
        let titles = instruments.iter().map(|instrument| Piece::of(&[&instrument.name, b" B"]));
        Printer { output: Output::new(writer), audits: Audits::new(instruments), titles: titles.collect() }
    }

    /// Prints the audits that the printed books made due.
    #[inline(always)]
    fn put_audits(&mut self, desk: &Desk, packet: u32, place: &Piece) {
        while let Some(due) = self.audits.next_due() {
            let spread = self.audits.spread(due);
            let [own, bought, sold] = spread.slots;
            if desk.is_live(own, packet) && desk.is_live(bought, packet) && desk.is_live(sold, packet) {
                let books = [desk.book(own), desk.book(bought), desk.book(sold)];
                // Safety: a line has at most 128 bytes.
                unsafe {
                    let end = self.audits.put(self.output.room(), place, spread, books);
                    self.output.put_up_to(end);
                }
            }
        }
    }
}

/// Puts together what stands between a line's letter and a name.
#[inline(always)]
fn place_of(packet: u32, message: u32) -> Piece {
    // Safety: letter, space, ten digits, a point, three digits and a space are 17 bytes.
    unsafe {
        Piece::filled(|to| {
            *to.add(1) = b' ';
            let to = put_number(to.add(2), packet.into());
            *to = b'.';
            let to = put_number(to.add(1), message.into());
            *to = b' ';
            to.add(1)
        })
    }
}

impl<W: Write> Shows for Printer<W> {
    const TEXT: bool = true;

    #[inline(always)]
    fn event_end(&mut self, desk: &mut Desk, packet: u32, message: u32) {
        const { assert!(BOOK_ROOM <= ROOM) };
        let place = place_of(packet, message);
        desk.ripen(packet);
        while let Some(slot) = desk.next_due() {
            let book = desk.book(slot);
            // Safety: the lines of a book take at most `BOOK_ROOM`.
            unsafe {
                let title = self.titles.get_unchecked(slot);
                let end = book.put(self.output.room(), &place, title);
                self.output.put_up_to(end);
            }
            self.audits.mark(slot);
        }
        self.put_audits(desk, packet, &place);
    }

    fn jump(&mut self, old: u64, new: u64) {
        self.output.text(format!("J {old} {new}\n").as_bytes());
    }

    fn end(&mut self, refused: &mut dyn Iterator<Item = Refused>, standing: Standing) {
        for Refused { feed, place, refusal } in refused {
            let number = refusal.number();
            self.output.text(format!("X {feed} {place} {number} {refusal:?}\n").as_bytes());
        }
        let state = if standing.is_lost { "lost" } else { "live" };
        self.output.text(format!("Z {} {state}\n", standing.next).as_bytes());
        self.output.flush();
    }

    fn has_failed(&self) -> bool {
        self.output.has_failed()
    }
}

/// Keeps books without any text, as a strategy would, which looks at the best consolidated quotes of each book that
/// changed.
///
/// What was looked at is summed up, so that two runs, or a run and a text, can be compared.
#[derive(Clone, Copy, Default, PartialEq, Eq, Debug)]
pub struct BooksAlone {
    pub event_ends: u64,
    pub books: u64,
    pub faulty: u64,
    pub jumps: u64,
    /// The sum of all best prices and sizes, of bids and offers, modulo 2^64.
    pub sum: u64,
}

impl Shows for BooksAlone {
    const TEXT: bool = false;

    #[inline(always)]
    fn event_end(&mut self, desk: &mut Desk, packet: u32, _message: u32) {
        self.event_ends += 1;
        desk.ripen(packet);
        while let Some(slot) = desk.next_due() {
            let book = desk.book(slot);
            self.books += 1;
            if book.is_faulty() {
                self.faulty += 1;
                continue;
            }
            for (price, size) in book.quotes().into_iter().flatten() {
                self.sum = self.sum.wrapping_add(price as u64).wrapping_add(size as u64);
            }
        }
    }

    fn jump(&mut self, _old: u64, _new: u64) {
        self.jumps += 1;
    }

    fn end(&mut self, _refused: &mut dyn Iterator<Item = Refused>, _standing: Standing) {}

    fn has_failed(&self) -> bool {
        false
    }
}
