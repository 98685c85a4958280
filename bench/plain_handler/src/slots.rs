//! Sets of slots, and the slots of security ids.

use crate::instruments::{Instrument, MOST_INSTRUMENTS};

const WORDS: usize = MOST_INSTRUMENTS / 64;

/// A set of slots, gone through in their order.
#[derive(Clone, Default)]
pub struct SlotSet {
    words: [u64; WORDS],
    /// Which words aren't 0.
    used: u64,
}

impl SlotSet {
    #[inline(always)]
    pub fn add(&mut self, slot: usize) {
        let word = slot / 64 % WORDS;
        self.words[word] |= 1 << (slot % 64);
        self.used |= 1 << word;
    }

    pub fn clear(&mut self) {
        *self = SlotSet::default();
    }

    /// Takes the first slot out.
    #[inline(always)]
    pub fn pop(&mut self) -> Option<usize> {
        if self.used == 0 {
            return None;
        }
        let word = self.used.trailing_zeros() as usize % WORDS;
        let set = self.words[word];
        let rest = set & (set - 1);
        self.words[word] = rest;
        if rest == 0 {
            self.used &= self.used - 1;
        }
        Some(word * 64 + set.trailing_zeros() as usize)
    }
}

/// How many places the table of ids has; four times as many as there are instruments at most.
const PLACES: usize = 4 * MOST_INSTRUMENTS;

/// Where nothing stands.
const FREE: u32 = u32::MAX;

/// The slots of the listed ids, by open addressing.
pub struct Slots {
    places: Box<[(i32, u32); PLACES]>,
}

impl Slots {
    pub fn new(instruments: &[Instrument]) -> Slots {
        let mut places = Box::new([(0, FREE); PLACES]);
        for (slot, instrument) in instruments.iter().enumerate() {
            let id = instrument.id as i32;
            let mut place = Slots::first_place(id);
            while places[place].1 != FREE {
                place = (place + 1) % PLACES;
            }
            places[place] = (id, slot as u32);
        }
        Slots { places }
    }

    #[inline(always)]
    fn first_place(id: i32) -> usize {
        (id as u32).wrapping_mul(0x9e37_79b1) as usize >> (32 - PLACES.trailing_zeros())
    }

    /// Gives the slot of a listed id.
    #[inline(always)]
    pub fn of(&self, id: i32) -> Option<usize> {
        let mut place = Slots::first_place(id);
        loop {
            let (listed, slot) = self.places[place % PLACES];
            if listed == id && slot != FREE {
                return Some(slot as usize);
            }
            if slot == FREE {
                return None;
            }
            place += 1;
        }
    }
}
