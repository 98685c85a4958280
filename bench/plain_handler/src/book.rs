//! The book of one security: two direct sides and two implied ones.

use crate::decimal::{put_number, put_signed};
use crate::pieces::{Piece, copy_blocks};
use crate::side::{Side, Way, put_merged, sum_of};
use crate::wire::{Entry, Snapshot};

/// The place of an impossible entry; packet 0 where there was none.
#[derive(Clone, Copy, Default, PartialEq, Eq, Debug)]
pub struct Fault {
    pub packet: u32,
    pub message: u32,
    pub entry: u32,
}

/// A best level of a consolidated book: its price, and the sum of its sizes.
pub type Quote = Option<(i64, i64)>;

/// The most bytes that the lines of a book take, with what is written after them: three heads of 40, direct levels of
/// 32, implied ones twice, consolidated ones of 42 bytes.
pub const BOOK_ROOM: usize = 4096;

#[repr(C, align(64))]
pub struct Book {
    /// The last packet that the book's snapshot includes, 0 before a first jump.
    pub base: u32,
    fault: Fault,
    direct: [Side<10>; 2],
    implied: [Side<2>; 2],
}

impl Book {
    /// Makes an empty book whose direct sides have so many levels, 1 to 10.
    pub fn new(depth: usize) -> Book {
        Book {
            base: 0,
            fault: Fault::default(),
            direct: [Side::new(depth), Side::new(depth)],
            implied: [Side::new(2), Side::new(2)],
        }
    }

    #[inline(always)]
    pub fn is_faulty(&self) -> bool {
        self.fault.packet != 0
    }

    #[inline(always)]
    pub fn bids(&self) -> &Side<10> {
        &self.direct[0]
    }

    #[inline(always)]
    pub fn offers(&self) -> &Side<10> {
        &self.direct[1]
    }

    #[inline(always)]
    pub fn implied_bids(&self) -> &Side<2> {
        &self.implied[0]
    }

    #[inline(always)]
    pub fn implied_offers(&self) -> &Side<2> {
        &self.implied[1]
    }

    /// Applies an entry that stands at a place. The first impossible one makes the book faulty.
    ///
    /// # Safety
    /// The entry was accepted.
    #[inline(always)]
    pub unsafe fn apply<const TEXT: bool>(&mut self, entry: &Entry, place: Fault) {
        if self.is_faulty() {
            return;
        }
        let side = entry.side();
        let way = Way::of_side(side);
        let is_possible = unsafe {
            if side < 2 {
                self.direct.get_unchecked_mut(side).apply::<TEXT>(entry, way)
            } else {
                self.implied.get_unchecked_mut(side & 1).apply::<TEXT>(entry, way)
            }
        };
        if !is_possible {
            self.fault = place;
        }
    }

    /// Takes the book of an accepted snapshot. Of more levels than the depth the first ones are taken.
    pub fn load<const TEXT: bool>(&mut self, snapshot: Snapshot<'_>) {
        self.base = snapshot.last();
        self.fault = Fault::default();
        self.direct.iter_mut().for_each(Side::clear);
        self.implied.iter_mut().for_each(Side::clear);
        let mut sides = [[(0, 0); 10]; 4];
        let mut counts = [0; 4];
        for level in snapshot.levels() {
            sides[level.side][level.level as usize - 1] = (level.price, level.size);
            counts[level.side] += 1;
        }
        for (side, levels) in sides.iter().enumerate() {
            let way = Way::of_side(side);
            for (at, &(price, size)) in levels[..counts[side]].iter().enumerate() {
                // Safety: of an accepted snapshot the levels of each side are 1 to n, in its range.
                unsafe {
                    if side < 2 {
                        self.direct[side].insert::<TEXT>(at, price, size, way);
                    } else {
                        self.implied[side - 2].insert::<TEXT>(at, price, size, way);
                    }
                }
            }
        }
    }

    /// Gives the best consolidated bid and offer of a good book.
    #[inline(always)]
    pub fn quotes(&self) -> [Quote; 2] {
        [0, 1].map(|side| {
            let (direct, implied) = (&self.direct[side], &self.implied[side]);
            if !(direct.is_ordered() && implied.is_ordered()) {
                return sum_of(direct.levels(), implied.levels(), Way::of_side(side)).first().copied();
            }
            let quote = |level: &crate::side::Level| (level.price, i64::from(level.size));
            match (direct.best(), implied.best()) {
                (Some(one), Some(two)) if one.price == two.price => {
                    Some((one.price, i64::from(one.size) + i64::from(two.size)))
                }
                (Some(one), Some(two)) if Way::of_side(side).is_better(two.price, one.price) => Some(quote(two)),
                (one, two) => one.or(two).map(quote),
            }
        })
    }

    /// Puts the lines `D`, `I` and `C`, or `F` of a faulty book. The place begins with two bytes for the line's letter
    /// and a space; the title is the name and ` B`.
    ///
    /// # Safety
    /// `BOOK_ROOM` bytes are writable at `to`.
    #[inline(always)]
    pub unsafe fn put(&self, to: *mut u8, place: &Piece, title: &Piece) -> *mut u8 {
        unsafe {
            if self.is_faulty() {
                return self.put_fault(to, place, title);
            }
            let bids = put_head(to, b'D', place, title);
            let bids_end = self.direct[0].put(bids);
            let offers = put_middle(bids_end);
            let offers_end = self.direct[1].put(offers);
            let to = put_end(offers_end);

            let levels = put_head(to, b'I', place, title);
            let middle = put_middle(self.implied[0].put(levels));
            let to = put_end(self.implied[1].put(middle));

            let levels = put_head(to, b'C', place, title);
            if self.implied[0].levels().is_empty() & self.implied[1].levels().is_empty() & self.is_ordered() {
                return copy_blocks(levels, bids, offers_end.offset_from(bids) as usize + 1);
            }
            let length = bids_end.offset_from(bids) as usize;
            let middle = put_middle(self.put_sum(levels, 0, (bids, length)));
            let length = offers_end.offset_from(offers) as usize;
            put_end(self.put_sum(middle, 1, (offers, length)))
        }
    }

    #[inline(always)]
    fn is_ordered(&self) -> bool {
        self.direct[0].is_ordered() & self.direct[1].is_ordered()
    }

    /// Puts a consolidated side, whose direct levels' text was put already.
    #[inline(always)]
    unsafe fn put_sum(&self, to: *mut u8, side: usize, text: (*const u8, usize)) -> *mut u8 {
        let (direct, implied) = (&self.direct[side], &self.implied[side]);
        let way = Way::of_side(side);
        unsafe {
            if direct.is_ordered() & implied.is_ordered() {
                put_merged(to, direct, implied, text, way)
            } else {
                put_slowly(to, sum_of(direct.levels(), implied.levels(), way))
            }
        }
    }

    #[cold]
    #[inline(never)]
    unsafe fn put_fault(&self, to: *mut u8, place: &Piece, title: &Piece) -> *mut u8 {
        unsafe {
            // The title ends with ` B`, of which the letter is not wanted.
            let mut to = put_head(to, b'F', place, title).sub(1);
            for (number, after) in [(self.fault.packet, b'.'), (self.fault.message, b'.'), (self.fault.entry, b'\n')] {
                to = put_number(to, number.into());
                *to = after;
                to = to.add(1);
            }
            to
        }
    }
}

/// Puts the head of a line up to its levels.
#[inline(always)]
unsafe fn put_head(to: *mut u8, letter: u8, place: &Piece, title: &Piece) -> *mut u8 {
    unsafe {
        let after = place.put(to);
        *to = letter;
        title.put(after)
    }
}

/// Puts what stands between bids and offers.
#[inline(always)]
unsafe fn put_middle(to: *mut u8) -> *mut u8 {
    unsafe {
        to.cast::<[u8; 2]>().write_unaligned(*b" O");
        to.add(2)
    }
}

#[inline(always)]
unsafe fn put_end(to: *mut u8) -> *mut u8 {
    unsafe {
        *to = b'\n';
        to.add(1)
    }
}

/// Puts sums whose levels were in no order.
#[cold]
#[inline(never)]
unsafe fn put_slowly(mut to: *mut u8, sums: Vec<(i64, i64)>) -> *mut u8 {
    for (price, size) in sums {
        unsafe {
            *to = b' ';
            to = put_signed(to.add(1), price);
            *to = b'x';
            to = put_signed(to.add(1), size);
        }
    }
    to
}

#[cfg(test)]
mod tests {
    use super::*;
    use std::fmt::Write;

    /// A book that is kept slowly: levels in lists, and text put together when it is asked for.
    struct Slow {
        sides: [Vec<(i64, i32)>; 4],
        depths: [usize; 4],
        fault: Option<Fault>,
    }

    impl Slow {
        fn apply(&mut self, entry: &Entry, place: Fault) {
            let (levels, depth) = (&mut self.sides[entry.side()], self.depths[entry.side()]);
            let at = entry.level as usize - 1;
            let is_possible = match entry.action {
                0 => at <= levels.len() && at < depth,
                _ => at < levels.len(),
            };
            if self.fault.is_some() || !is_possible {
                self.fault = self.fault.or(Some(place));
                return;
            }
            match entry.action {
                0 => levels.insert(at, (entry.price, entry.size)),
                1 => levels[at] = (entry.price, entry.size),
                _ => _ = levels.remove(at),
            }
            levels.truncate(depth);
        }

        fn sums(&self, side: usize) -> Vec<(i64, i64)> {
            let mut sums = std::collections::BTreeMap::new();
            for (price, size) in self.sides[side].iter().chain(&self.sides[side + 2]) {
                *sums.entry(*price).or_insert(0) += i64::from(*size);
            }
            if side == 0 { sums.into_iter().rev().collect() } else { sums.into_iter().collect() }
        }

        fn text(&self) -> String {
            if let Some(Fault { packet, message, entry }) = self.fault {
                return format!("F 5.2 NEAR {packet}.{message}.{entry}\n");
            }
            let wide = |side: usize| self.sides[side].iter().map(|level| (level.0, i64::from(level.1))).collect();
            let mut text = String::new();
            for (letter, bids, offers) in
                [('D', wide(0), wide(1)), ('I', wide(2), wide(3)), ('C', self.sums(0), self.sums(1))]
            {
                let bids: Vec<(i64, i64)> = bids;
                write!(text, "{letter} 5.2 NEAR B").unwrap();
                bids.iter().for_each(|(price, size)| write!(text, " {price}x{size}").unwrap());
                write!(text, " O").unwrap();
                offers.iter().for_each(|(price, size)| write!(text, " {price}x{size}").unwrap());
                text.push('\n');
            }
            text
        }
    }

    /// Numbers that follow from a seed.
    struct Random(u64);

    impl Random {
        fn below(&mut self, most: u64) -> u64 {
            self.0 = self.0.wrapping_mul(6_364_136_223_846_793_005).wrapping_add(1_442_695_040_888_963_407);
            (self.0 >> 33) % most
        }

        fn price(&mut self) -> i64 {
            match self.below(8) {
                0 => [i64::MIN, i64::MAX - 1, 0, -1, 9_999_999_999_999_999, i64::MIN + 1][self.below(6) as usize],
                _ => self.below(12) as i64 - 6,
            }
        }

        fn size(&mut self) -> i32 {
            match self.below(4) {
                0 => [0, i32::MAX - 1, 9_999, 10_000, 99_999_999, 100_000_000][self.below(6) as usize],
                _ => self.below(1000) as i32,
            }
        }
    }

    fn text_of(book: &Book) -> String {
        let place = Piece::of(&[b"? 5.2 "]);
        let title = Piece::of(&[b"NEAR B"]);
        let mut bytes = vec![b'#'; BOOK_ROOM];
        let start = bytes.as_mut_ptr();
        let length = unsafe { book.put(start, &place, &title).offset_from(start) } as usize;
        String::from_utf8(bytes[..length].to_vec()).unwrap()
    }

    /// Runs entries that are mostly possible, in any order of prices, and compares after each one.
    fn compare(depth: usize, seed: u64, steps: u32) {
        let mut random = Random(seed);
        let depths = [depth, depth, 2, 2];
        let mut book = Book::new(depth);
        let mut slow = Slow { sides: Default::default(), depths, fault: None };
        for step in 1..=steps {
            let side = random.below(4) as usize;
            let count = slow.sides[side].len() as u64;
            let mut entry = Entry::of_side(side, random.below(3) as u8);
            let most = if side < 2 { 10 } else { 2 };
            let possible = if entry.action == 0 { (count + 1).min(depths[side] as u64) } else { count.max(1) };
            let range = if random.below(200) == 0 { most } else { possible };
            (entry.level, entry.price, entry.size) = (1 + random.below(range) as u8, random.price(), random.size());
            let place = Fault { packet: step, message: 2, entry: 3 };
            unsafe { book.apply::<true>(&entry, place) };
            slow.apply(&entry, place);
            assert_eq!(text_of(&book), slow.text(), "step {step} of seed {seed}");
            if !book.is_faulty() {
                assert_eq!(book.quotes(), [0, 1].map(|side| slow.sums(side).first().copied()));
            }
        }
    }

    #[test]
    fn books_have_the_slow_text_whatever_comes() {
        for depth in [1, 2, 5, 10] {
            (0..300).for_each(|seed| compare(depth, seed, 120));
        }
    }

    #[test]
    fn ordered_books_have_the_slow_text_too() {
        // Prices by level, so that sides stay in order and the quick way is gone; each third has the direct price.
        for seed in 0..200 {
            let mut random = Random(seed);
            let mut book = Book::new(10);
            let mut slow = Slow { sides: Default::default(), depths: [10, 10, 2, 2], fault: None };
            for step in 1..=40 {
                let side = random.below(4) as usize;
                let count = slow.sides[side].len() as u64;
                let most = if side < 2 { 10 } else { 2 };
                let mut entry = Entry::of_side(side, u8::from(count >= most));
                entry.level = 1 + random.below((count + 1).min(most)) as u8;
                let way = [-1, 1][side & 1];
                let place = |at: usize| slow.sides[side].get(at).map(|level| level.0);
                let at = entry.level as usize - 1;
                let before = if at > 0 { place(at - 1) } else { None };
                let after = if entry.action == 0 { place(at) } else { place(at + 1) };
                entry.price = match (before, after) {
                    (None, None) => random.below(9) as i64 * 1000,
                    (Some(before), None) => before + way * (1 + random.below(3) as i64) * 1000,
                    (None, Some(after)) => after - way * (1 + random.below(3) as i64) * 1000,
                    (Some(before), Some(after)) => (before + after) / 2,
                };
                entry.size = random.size();
                let place = Fault { packet: step, message: 2, entry: 3 };
                unsafe { book.apply::<true>(&entry, place) };
                slow.apply(&entry, place);
                assert_eq!(text_of(&book), slow.text(), "step {step} of seed {seed}");
            }
        }
    }
}
