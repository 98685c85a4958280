//! One side of a book: levels by position, each with its text.

use crate::decimal::{put_number, put_signed};
use crate::wire::Entry;
use std::ptr::copy_nonoverlapping;

/// The longest text of a level in bytes: a space, a price of 20 characters, `x`, a size of ten digits.
const LEVEL_TEXT: usize = 32;

/// A level, and its text ` PRICExSIZE`.
///
/// What is written to a text may run over its end; the fields after it are therefore written after the text.
#[derive(Clone, Copy)]
#[repr(C, align(16))]
pub struct Level {
    text: [u8; LEVEL_TEXT],
    pub price: i64,
    pub size: i32,
    /// How long the text is up to its size.
    size_at: u8,
    /// How long the text is; 0 where there is no level.
    length: u8,
}

impl Level {
    const NONE: Level = Level { text: [0; LEVEL_TEXT], price: 0, size: 0, size_at: 0, length: 0 };

    /// Takes a new price and size.
    ///
    /// # Safety
    /// The size isn't negative.
    #[inline(always)]
    unsafe fn set<const TEXT: bool>(&mut self, price: i64, size: i32) {
        if TEXT {
            unsafe {
                let text = (self as *mut Level).cast::<u8>();
                *text = b' ';
                let to = put_signed(text.add(1), price);
                *to = b'x';
                self.size_at = to.add(1).offset_from(text) as u8;
            }
        }
        self.price = price;
        unsafe { self.resize::<TEXT>(size) };
    }

    /// Takes a new size, with the price as it is.
    ///
    /// # Safety
    /// The size isn't negative.
    #[inline(always)]
    unsafe fn resize<const TEXT: bool>(&mut self, size: i32) {
        if TEXT {
            // A size of ten digits ends with the text, and is written in pieces of four bytes that don't run over.
            unsafe {
                let text = (self as *mut Level).cast::<u8>();
                let end = put_number(text.add(self.size_at as usize), size as u32 as u64);
                self.length = end.offset_from(text) as u8;
            }
        }
        self.size = size;
    }

    /// Puts the level's text, nothing where there is no level.
    ///
    /// # Safety
    /// 32 bytes are writable at `to`.
    #[inline(always)]
    pub unsafe fn put(&self, to: *mut u8) -> *mut u8 {
        unsafe {
            copy_nonoverlapping(self.text.as_ptr(), to, LEVEL_TEXT);
            to.add(self.length as usize)
        }
    }

    /// Puts the level's price and another size.
    ///
    /// # Safety
    /// 64 bytes are writable at `to`.
    #[inline(always)]
    unsafe fn put_with_size(&self, to: *mut u8, size: u64) -> *mut u8 {
        unsafe {
            copy_nonoverlapping(self.text.as_ptr(), to, LEVEL_TEXT);
            put_number(to.add(self.size_at as usize), size)
        }
    }
}

/// Which of two prices is better.
#[derive(Clone, Copy, PartialEq, Eq)]
pub enum Way {
    /// Bids: the higher one.
    Falling = -1,
    /// Offers: the lower one.
    Rising = 0,
}

impl Way {
    /// Gives the way of a side's number: bids are even, offers odd.
    #[inline(always)]
    pub fn of_side(side: usize) -> Way {
        if side & 1 == 0 { Way::Falling } else { Way::Rising }
    }

    /// Tells whether a price is better than another.
    #[inline(always)]
    pub fn is_better(self, price: i64, other: i64) -> bool {
        // The complement turns the order of all numbers round.
        let turn = self as i64;
        (price ^ turn) < (other ^ turn)
    }
}

/// One side of a book with room for `ROOM` levels.
#[derive(Clone)]
#[repr(C)]
pub struct Side<const ROOM: usize> {
    levels: [Level; ROOM],
    count: usize,
    /// The most levels that the exchange keeps.
    depth: usize,
    /// Prices get strictly worse from level to level.
    is_ordered: bool,
}

impl<const ROOM: usize> Side<ROOM> {
    /// Makes an empty side of so many levels, 1 to `ROOM`.
    pub fn new(depth: usize) -> Side<ROOM> {
        Side { levels: [Level::NONE; ROOM], count: 0, depth: depth.min(ROOM), is_ordered: true }
    }

    /// Gives the levels, the best first.
    #[inline(always)]
    pub fn levels(&self) -> &[Level] {
        unsafe { self.levels.get_unchecked(..self.count) }
    }

    #[inline(always)]
    pub fn best(&self) -> Option<&Level> {
        if self.count > 0 { Some(&self.levels[0]) } else { None }
    }

    #[inline(always)]
    pub fn is_ordered(&self) -> bool {
        self.is_ordered
    }

    /// Takes all levels away.
    pub fn clear(&mut self) {
        self.levels.iter_mut().for_each(|level| level.length = 0);
        self.count = 0;
        self.is_ordered = true;
    }

    /// Applies an entry, and tells whether its position was possible. An impossible one changes nothing.
    ///
    /// # Safety
    /// The entry was accepted, and is for such a side: its level is at most `ROOM`.
    #[inline(always)]
    pub unsafe fn apply<const TEXT: bool>(&mut self, entry: &Entry, way: Way) -> bool {
        let at = entry.level as usize - 1;
        unsafe {
            match entry.action {
                0 => self.insert::<TEXT>(at, entry.price, entry.size, way),
                1 => self.change::<TEXT>(at, entry.price, entry.size, way),
                _ => self.delete(at, way),
            }
        }
    }

    #[inline(always)]
    unsafe fn at(&mut self, place: usize) -> &mut Level {
        unsafe { self.levels.get_unchecked_mut(place) }
    }

    /// Puts a new level in at a place.
    ///
    /// # Safety
    /// The place is below `ROOM`, and the size isn't negative.
    #[inline(always)]
    pub unsafe fn insert<const TEXT: bool>(&mut self, at: usize, price: i64, size: i32, way: Way) -> bool {
        if at > self.count || at >= self.depth {
            return false;
        }
        // The place that is filled: the first free one, or that of the level that falls off.
        let mut last = self.count;
        if last == self.depth {
            last -= 1;
        }
        self.count = last + 1;
        unsafe {
            let first = self.levels.as_mut_ptr();
            let mut to = first.add(last);
            while to > first.add(at) {
                *to = *to.sub(1);
                to = to.sub(1);
            }
            self.at(at).set::<TEXT>(price, size);
            self.look_at_order(at, way);
        }
        true
    }

    #[inline(always)]
    unsafe fn change<const TEXT: bool>(&mut self, at: usize, price: i64, size: i32, way: Way) -> bool {
        if at >= self.count {
            return false;
        }
        unsafe {
            let level = self.at(at);
            if level.price == price {
                level.resize::<TEXT>(size);
            } else {
                level.set::<TEXT>(price, size);
                self.look_at_order(at, way);
            }
        }
        true
    }

    #[inline(always)]
    unsafe fn delete(&mut self, at: usize, way: Way) -> bool {
        if at >= self.count {
            return false;
        }
        self.count -= 1;
        unsafe {
            let first = self.levels.as_mut_ptr();
            let end = first.add(self.count);
            let mut to = first.add(at);
            while to < end {
                *to = *to.add(1);
                to = to.add(1);
            }
            (*end).length = 0;
        }
        if !self.is_ordered {
            self.look_at_all(way);
        }
        true
    }

    /// Keeps `is_ordered` after the level at a place came or got another price.
    #[inline(always)]
    unsafe fn look_at_order(&mut self, at: usize, way: Way) {
        if !self.is_ordered {
            return self.look_at_all(way);
        }
        unsafe {
            let price = self.at(at).price;
            let follows = at == 0 || way.is_better(self.at(at - 1).price, price);
            let leads = at + 1 >= self.count || way.is_better(price, self.at(at + 1).price);
            self.is_ordered = follows & leads;
        }
    }

    #[cold]
    #[inline(never)]
    fn look_at_all(&mut self, way: Way) {
        self.is_ordered = self.levels().windows(2).all(|pair| way.is_better(pair[0].price, pair[1].price));
    }

    /// Puts the texts of all levels.
    ///
    /// # Safety
    /// 32 bytes for each level that there is room for are writable at `to`.
    #[inline(always)]
    pub unsafe fn put(&self, mut to: *mut u8) -> *mut u8 {
        // Places without a level have an empty text, so there is nothing to decide.
        for level in &self.levels {
            to = unsafe { level.put(to) };
        }
        to
    }
}

/// Puts the sum of a direct side and an implied one, both of them ordered, whose direct text stands at `text`.
///
/// # Safety
/// 1,024 bytes are writable at `to`, and `text` lies before it.
#[inline(always)]
pub unsafe fn put_merged(
    mut to: *mut u8,
    direct: &Side<10>,
    implied: &Side<2>,
    text: (*const u8, usize),
    way: Way,
) -> *mut u8 {
    let (mut from, length) = text;
    unsafe {
        let end = from.add(length);
        let mut rest = direct.levels().iter();
        for level in implied.levels() {
            let start = from;
            while let Some(next) = rest.as_slice().first().filter(|next| way.is_better(next.price, level.price)) {
                from = from.add(next.length as usize);
                rest.next();
            }
            to = crate::pieces::copy_blocks(to, start, from.offset_from(start) as usize);
            match rest.as_slice().first().filter(|next| next.price == level.price) {
                Some(next) => {
                    to = next.put_with_size(to, next.size as u64 + level.size as u64);
                    from = from.add(next.length as usize);
                    rest.next();
                }
                None => to = level.put(to),
            }
        }
        crate::pieces::copy_blocks(to, from, end.offset_from(from) as usize)
    }
}

/// Adds up the levels of two sides of any order: each price once, the best first.
pub fn sum_of(direct: &[Level], implied: &[Level], way: Way) -> Vec<(i64, i64)> {
    let mut sums: Vec<(i64, i64)> = Vec::new();
    for level in direct.iter().chain(implied) {
        let place = sums.iter().position(|sum| !way.is_better(sum.0, level.price)).unwrap_or(sums.len());
        match sums.get_mut(place) {
            Some(sum) if sum.0 == level.price => sum.1 += level.size as i64,
            _ => sums.insert(place, (level.price, level.size as i64)),
        }
    }
    sums
}
