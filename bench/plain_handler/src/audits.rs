//! The audits of calendar spreads: published implied quotes against what the legs make.

use crate::book::Book;
use crate::instruments::{Instrument, Kind};
use crate::pieces::Piece;
use crate::side::Level;
use std::cmp::Ordering;

/// The words of the verdicts.
const VERDICTS: [&str; 8] = ["none", "missing", "extra", "better", "worse", "equal", "equal-less", "equal-more"];

/// A calendar spread: its slot and those of its legs, bought and sold.
pub struct Spread {
    pub slots: [usize; 3],
    title: Piece,
}

/// A set of spreads, by their places in the list of them.
type SpreadSet = [u64; 8];

/// The spreads of a list of instruments, and which are due for an audit.
pub struct Audits {
    spreads: Vec<Spread>,
    /// The spreads that a security concerns, by its slot.
    concerned: Vec<SpreadSet>,
    /// How many words of a set are used.
    words: usize,
    due: SpreadSet,
    /// What stands after ` bid ` in a line, by the two verdicts.
    tails: Vec<Piece>,
}

impl Audits {
    pub fn new(instruments: &[Instrument]) -> Audits {
        let slot_of = |id| instruments.iter().position(|other| other.id == id).expect("a leg is listed");
        let spreads: Vec<Spread> = instruments
            .iter()
            .enumerate()
            .filter_map(|(slot, instrument)| match instrument.kind {
                Kind::Outright { .. } => None,
                Kind::Calendar { bought, sold } => Some(Spread {
                    slots: [slot, slot_of(bought), slot_of(sold)],
                    title: Piece::of(&[&instrument.name, b" bid "]),
                }),
            })
            .collect();
        let mut concerned = vec![[0; 8]; instruments.len()];
        for (place, spread) in spreads.iter().enumerate() {
            for slot in spread.slots {
                concerned[slot][place / 64] |= 1 << (place % 64);
            }
        }
        let tails = VERDICTS
            .iter()
            .flat_map(|bid| VERDICTS.map(|offer| Piece::of(&[format!("{bid} offer {offer}\n").as_bytes()])));
        Audits { words: spreads.len().div_ceil(64), tails: tails.collect(), spreads, concerned, due: [0; 8] }
    }

    /// Makes the spreads due that a printed security concerns.
    #[inline(always)]
    pub fn mark(&mut self, slot: usize) {
        let concerned = unsafe { self.concerned.get_unchecked(slot) };
        for (due, concerned) in self.due.iter_mut().zip(concerned).take(self.words) {
            *due |= concerned;
        }
    }

    /// Hands out the first spread that is due, which then isn't any more.
    #[inline(always)]
    pub fn next_due(&mut self) -> Option<usize> {
        for word in 0..self.words.min(8) {
            let set = self.due[word];
            if set != 0 {
                self.due[word] = set & (set - 1);
                return Some(word * 64 + set.trailing_zeros() as usize);
            }
        }
        None
    }

    #[inline(always)]
    pub fn spread(&self, place: usize) -> &Spread {
        unsafe { self.spreads.get_unchecked(place) }
    }

    /// Puts a spread's `A` line; the place begins with two bytes for the letter and a space.
    ///
    /// # Safety
    /// 128 bytes are writable at `to`.
    #[inline(always)]
    pub unsafe fn put(&self, to: *mut u8, place: &Piece, spread: &Spread, books: [&Book; 3]) -> *mut u8 {
        let [own, bought, sold] = books;
        let bid = verdict_of(own.implied_bids().best(), bought.bids().best(), sold.offers().best(), true);
        let offer = verdict_of(own.implied_offers().best(), bought.offers().best(), sold.bids().best(), false);
        unsafe {
            let after = place.put(to);
            *to = b'A';
            self.tails.get_unchecked(bid * 8 + offer).put(spread.title.put(after))
        }
    }
}

/// Gives the place of the verdict's word on a published level. The legs make a level where both have one: the
/// difference of the prices, and the smaller size.
#[inline(always)]
fn verdict_of(published: Option<&Level>, bought: Option<&Level>, sold: Option<&Level>, is_bid: bool) -> usize {
    let (published, bought, sold) = match (published, bought, sold) {
        (Some(published), Some(bought), Some(sold)) => (published, bought, sold),
        (None, Some(_), Some(_)) => return 1,
        (None, _, _) => return 0,
        (Some(_), _, _) => return 2,
    };
    let order = match bought.price.checked_sub(sold.price) {
        Some(made) => published.price.cmp(&made),
        None => order_of_far_prices(published.price, bought.price, sold.price),
    };
    match order {
        Ordering::Equal => match published.size.cmp(&bought.size.min(sold.size)) {
            Ordering::Equal => 5,
            Ordering::Less => 6,
            Ordering::Greater => 7,
        },
        _ => 4 - usize::from((order == Ordering::Greater) == is_bid),
    }
}

/// Compares a published price with a difference that is no 64-bit number.
#[cold]
#[inline(never)]
fn order_of_far_prices(published: i64, bought: i64, sold: i64) -> Ordering {
    i128::from(published).cmp(&(i128::from(bought) - i128::from(sold)))
}

#[cfg(test)]
mod tests {
    use super::*;
    use crate::side::{Side, Way};

    /// Makes a side of one level, or of none.
    fn side(level: Option<(i64, i32)>) -> Side<2> {
        let mut side = Side::new(2);
        if let Some((price, size)) = level {
            assert!(unsafe { side.insert::<false>(0, price, size, Way::Falling) });
        }
        side
    }

    fn verdict(
        published: Option<(i64, i32)>,
        bought: Option<(i64, i32)>,
        sold: Option<(i64, i32)>,
    ) -> [&'static str; 2] {
        let [published, bought, sold] = [published, bought, sold].map(side);
        [true, false].map(|is_bid| VERDICTS[verdict_of(published.best(), bought.best(), sold.best(), is_bid)])
    }

    #[test]
    fn verdicts_are_those_of_the_table() {
        let level = |price, size| Some((price, size));
        for (published, bought, sold, wanted) in [
            (None, None, level(1, 1), ["none"; 2]),
            (None, level(3, 1), level(1, 1), ["missing"; 2]),
            (level(1, 1), level(3, 1), None, ["extra"; 2]),
            (level(3, 1), level(3, 5), level(1, 4), ["better", "worse"]),
            (level(1, 1), level(3, 5), level(1, 4), ["worse", "better"]),
            (level(2, 4), level(3, 5), level(1, 4), ["equal"; 2]),
            (level(2, 3), level(3, 5), level(1, 4), ["equal-less"; 2]),
            (level(2, 5), level(3, 5), level(1, 4), ["equal-more"; 2]),
            // Differences beyond 64 bits, which no published price equals.
            (level(i64::MIN, 1), level(i64::MIN, 1), level(1, 1), ["better", "worse"]),
            (level(i64::MAX - 1, 1), level(i64::MAX - 1, 1), level(-9, 1), ["worse", "better"]),
        ] {
            assert_eq!(verdict(published, bought, sold), wanted, "{published:?} {bought:?} {sold:?}");
        }
    }
}
