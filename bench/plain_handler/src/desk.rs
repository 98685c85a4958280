//! The books of all listed securities, and which of them are due to be shown.

use crate::book::{Book, Fault};
use crate::instruments::{Instrument, Kind};
use crate::slots::{SlotSet, Slots};
use crate::wire::{Entry, Snapshot};

pub struct Desk {
    slots: Slots,
    books: Vec<Book>,
    /// Named by an entry since the event end before.
    due: SlotSet,
    /// Not shown since the latest jump; they are due at the first event end past their base.
    waiting: Vec<usize>,
    /// The least base of those that wait, `NOBODY_WAITS` where none does.
    least_base: u64,
}

const NOBODY_WAITS: u64 = u64::MAX;

impl Desk {
    pub fn new(instruments: &[Instrument]) -> Desk {
        let depth = |instrument: &Instrument| match instrument.kind {
            Kind::Outright { depth } => depth.into(),
            Kind::Calendar { .. } => 10,
        };
        Desk {
            slots: Slots::new(instruments),
            books: instruments.iter().map(|instrument| Book::new(depth(instrument))).collect(),
            due: SlotSet::default(),
            waiting: Vec::with_capacity(instruments.len()),
            least_base: NOBODY_WAITS,
        }
    }

    /// Gives the slot of a listed security.
    #[inline(always)]
    pub fn slot_of(&self, security: i32) -> Option<usize> {
        self.slots.of(security)
    }

    #[inline(always)]
    pub fn book(&self, slot: usize) -> &Book {
        unsafe { self.books.get_unchecked(slot) }
    }

    /// Hears an entry that stands at a place.
    ///
    /// # Safety
    /// The entry was accepted.
    #[inline(always)]
    pub unsafe fn hear<const TEXT: bool>(&mut self, entry: &Entry, place: Fault) {
        let Some(slot) = self.slots.of(entry.security) else {
            return;
        };
        unsafe {
            let book = self.books.get_unchecked_mut(slot);
            if place.packet > book.base {
                self.due.add(slot);
                book.apply::<TEXT>(entry, place);
            }
        }
    }

    /// Takes the snapshots that a jump took, one for each slot.
    pub fn rebase<'a, const TEXT: bool>(&mut self, snapshots: impl Iterator<Item = Snapshot<'a>>) {
        self.books.iter_mut().zip(snapshots).for_each(|(book, snapshot)| book.load::<TEXT>(snapshot));
        self.due.clear();
        self.waiting.clear();
        self.waiting.extend(0..self.books.len());
        self.note_least();
    }

    fn note_least(&mut self) {
        let bases = self.waiting.iter().map(|&slot| u64::from(self.books[slot].base));
        self.least_base = bases.min().unwrap_or(NOBODY_WAITS);
    }

    /// Makes those due that waited for an event end of this packet.
    #[inline(always)]
    pub fn ripen(&mut self, packet: u32) {
        if u64::from(packet) > self.least_base {
            self.ripen_some(packet);
        }
    }

    #[cold]
    #[inline(never)]
    fn ripen_some(&mut self, packet: u32) {
        let (books, due) = (&self.books, &mut self.due);
        self.waiting.retain(|&slot| {
            let is_ripe = packet > books[slot].base;
            if is_ripe {
                due.add(slot);
            }
            !is_ripe
        });
        self.note_least();
    }

    /// Takes the first security that is due, in listed order.
    #[inline(always)]
    pub fn next_due(&mut self) -> Option<usize> {
        self.due.pop()
    }

    /// Tells whether a book is good and the packet lies past its snapshot.
    #[inline(always)]
    pub fn is_live(&self, slot: usize, packet: u32) -> bool {
        let book = self.book(slot);
        packet > book.base && !book.is_faulty()
    }
}
