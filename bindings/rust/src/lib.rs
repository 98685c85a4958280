//! The order books of one CME MDP 3.0 channel, over the proved library for C.
//!
//! A handler takes datagrams as they come, and tells the books that changed and the lines that `mdp_handler` prints.
//! It waits for nothing and starts no thread. Another thread may take it over, and two handlers share nothing.

mod error;
mod raw;

pub use error::{Error, Refusal};
pub use raw::Level;

use std::mem::size_of;
use std::{fmt, iter, ptr, slice};

/// The most instruments that a handler has.
const MOST_SLOTS: usize = 512;

/// The most levels that a side of a book has.
const MOST_LEVELS: usize = 12;

#[derive(Clone, Copy, Debug, PartialEq, Eq)]
pub enum Feed {
    A,
    B,
    /// The snapshot feed.
    S,
}

#[derive(Clone, Copy, Debug, PartialEq, Eq)]
pub enum Book {
    Direct,
    Implied,
    Consolidated,
}

#[derive(Clone, Copy, Debug, PartialEq, Eq)]
pub enum Side {
    Bid,
    Offer,
}

#[derive(Clone, Copy, Debug, PartialEq, Eq)]
pub enum Start {
    /// Packet 1 is the first.
    FromOne,
    /// Joins a channel that is under way.
    Join,
}

/// How a channel is followed; by default as the program follows it.
#[derive(Clone, Copy, Debug)]
pub struct Options {
    /// A packet so many numbers after the next one gives that one up, 1 to 65536.
    pub window: u32,
    pub start: Start,
    /// Whether the lines are kept that the program prints, or books alone.
    pub lines: bool,
}

impl Default for Options {
    fn default() -> Options {
        Options { window: 1024, start: Start::FromOne, lines: true }
    }
}

/// An instrument, which the handler judges where it is opened.
#[repr(transparent)]
#[derive(Clone, Copy, Debug)]
pub struct Instrument(raw::Listed);

impl Instrument {
    /// An outright whose direct book has `depth` levels on a side.
    pub fn outright(id: i32, name: &str, depth: u8) -> Instrument {
        Instrument::new(id, name, depth, 0, 0)
    }

    /// A calendar spread, which buys `leg1` and sells `leg2`.
    pub fn calendar(id: i32, name: &str, leg1: i32, leg2: i32) -> Instrument {
        Instrument::new(id, name, 10, leg1, leg2)
    }

    fn new(id: i32, name: &str, depth: u8, leg1: i32, leg2: i32) -> Instrument {
        let mut bytes = [0; 20];
        for (to, from) in bytes.iter_mut().zip(name.bytes()) {
            *to = from;
        }
        // A name that is too long has a length that is refused.
        let length = u8::try_from(name.len()).unwrap_or(u8::MAX);
        Instrument(raw::Listed { id, leg1, leg2, depth, length, name: bytes, reserved: 0 })
    }
}

/// What became of a packet.
#[derive(Clone, Copy, Debug, PartialEq, Eq)]
pub enum Fate {
    /// The first copy of its number.
    First,
    /// A packet of its number waits already.
    Repeat,
    /// Its number has passed.
    Past,
    /// Its number was given up.
    Late,
    /// The channel was closed before.
    AfterClose,
}

/// What a datagram brought.
#[derive(Clone, Copy, Debug, PartialEq, Eq)]
pub enum Taken {
    Packet(Fate),
    /// How many snapshots are the newest of their security, no newer than one before, of none that is listed, and after
    /// the close.
    Snapshots {
        news: u64,
        older: u64,
        unlisted: u64,
        after_close: u64,
    },
}

/// Packet `next` is given up, since packet `highest` came.
#[derive(Clone, Copy, Debug, PartialEq, Eq)]
pub struct Loss {
    pub next: u64,
    pub highest: u64,
}

/// Recovery went on at packet `new` in place of `old`, and every book was replaced.
#[derive(Clone, Copy, Debug, PartialEq, Eq)]
pub struct Jump {
    pub old: u64,
    pub new: u64,
}

/// What became of a datagram, and what it moved.
#[derive(Clone, Copy, Debug, PartialEq, Eq)]
pub struct Became {
    pub taken: Taken,
    pub loss: Option<Loss>,
    pub jump: Option<Jump>,
}

/// The best level of each consolidated side. A faulty book has neither.
#[derive(Clone, Copy, Debug, PartialEq, Eq)]
pub struct Best {
    pub bid: Option<Level>,
    pub offer: Option<Level>,
    pub is_faulty: bool,
}

/// The place of the first entry that had none in its book, each number from 1.
#[derive(Clone, Copy, Debug, PartialEq, Eq)]
pub struct Fault {
    pub packet: u32,
    pub message: u64,
    pub entry: u32,
}

/// Where the channel stands.
#[derive(Clone, Copy, Debug, PartialEq, Eq)]
pub struct State {
    /// The number of the packet that comes next.
    pub next: u64,
    /// The highest number that came, or `next - 1`, if that is greater.
    pub highest: u64,
    /// How many packets wait for one before them.
    pub waiting: u64,
    /// Whether it has not joined, or packet `next` is given up.
    pub is_lost: bool,
    /// The slot of the first security that a jump waits for.
    pub stale: Option<u64>,
}

/// Slots that changed, ascending. They are the caller's own: the handler may go on meanwhile.
pub type Slots = iter::Take<std::array::IntoIter<u32, MOST_SLOTS>>;

/// Levels of a side, the best first. They are the caller's own.
pub type Levels = iter::Take<std::array::IntoIter<Level, MOST_LEVELS>>;

/// A handler of one channel.
pub struct Handler {
    raw: raw::Handle,
}

// SAFETY: the library is proved to let another thread take a handle over. None is shared: each call has it alone.
unsafe impl Send for Handler {}

impl Handler {
    /// Opens a handler with 1 to 512 instruments, the legs of a spread before it.
    pub fn open(instruments: &[Instrument], options: &Options) -> Result<Handler, Error> {
        let listed = instruments.as_ptr().cast::<raw::Listed>();
        // SAFETY: an `Instrument` has the layout of what is in it.
        Handler::open_by(options, |handle, options, place| unsafe {
            raw::mdp_open(handle, options, listed, instruments.len(), place)
        })
    }

    /// Opens a handler with a text of `I` lines, as a capture has them.
    pub fn open_text(listing: &[u8], options: &Options) -> Result<Handler, Error> {
        Handler::open_by(options, |handle, options, line| unsafe {
            raw::mdp_open_text(handle, options, listing.as_ptr(), listing.len(), line)
        })
    }

    fn open_by(
        options: &Options,
        open: impl FnOnce(*mut raw::Handle, *const raw::Options, *mut u64) -> u32,
    ) -> Result<Handler, Error> {
        let plain = raw::Options {
            size: size_of::<raw::Options>() as u64,
            window: options.window,
            start: options.start as u32,
            lines: u32::from(options.lines),
            reserved: 0,
        };
        let mut handler = Handler { raw: raw::Handle { address: ptr::null_mut() } };
        let mut place = u64::MAX;
        match open(&mut handler.raw, &plain, &mut place) {
            0 => Ok(handler),
            status => Err(Error::of(status, (place != u64::MAX).then_some(place))),
        }
    }

    /// Takes in a datagram, and tells what became of it. One that is refused or too long changes nothing. After `Memory`
    /// the handler takes no more datagrams, and answers all else as before.
    pub fn datagram(&mut self, feed: Feed, bytes: &[u8]) -> Result<Became, Error> {
        let mut became = raw::Became::default();
        done(unsafe { raw::mdp_datagram(&mut self.raw, feed as u32, bytes.as_ptr(), bytes.len(), &mut became) })?;
        let taken = match (became.kind, became.fate) {
            (1, 0) => Taken::Packet(Fate::First),
            (1, 1) => Taken::Packet(Fate::Repeat),
            (1, 2) => Taken::Packet(Fate::Past),
            (1, 3) => Taken::Packet(Fate::Late),
            (1, _) => Taken::Packet(Fate::AfterClose),
            _ => Taken::Snapshots {
                news: became.news,
                older: became.older,
                unlisted: became.unlisted,
                after_close: became.after_close,
            },
        };
        let loss = (became.has_loss == 1).then_some(Loss { next: became.loss_next, highest: became.loss_highest });
        let jump = (became.has_jump == 1).then_some(Jump { old: became.jump_old, new: became.jump_new });
        Ok(Became { taken, loss, jump })
    }

    /// Takes in that the channel was closed: no packet passes from now on, and no snapshot counts.
    pub fn close(&mut self) -> Result<(), Error> {
        done(unsafe { raw::mdp_close(&mut self.raw) })
    }

    /// Lends the lines that are held.
    pub fn lines(&mut self) -> &[u8] {
        let mut lent = raw::Lent { bytes: [].as_ptr(), length: 0 };
        // SAFETY: the lines stay up to the next call, and each call borrows the handler anew.
        unsafe {
            raw::mdp_lines(&mut self.raw, &mut lent);
            slice::from_raw_parts(lent.bytes, lent.length)
        }
    }

    /// Lets the lines go, and the marks of what changed.
    pub fn clear_lines(&mut self) {
        unsafe { raw::mdp_clear_lines(&mut self.raw) };
    }

    /// The slots whose books were printed since lines were let go last.
    pub fn changed(&mut self) -> Slots {
        let mut slots = [0; MOST_SLOTS];
        let mut count = 0;
        unsafe { raw::mdp_changed(&mut self.raw, slots.as_mut_ptr(), slots.len(), &mut count) };
        slots.into_iter().take(count as usize)
    }

    /// Whether the book at a slot is the complete feed's right before the packet that comes next.
    pub fn is_current(&mut self, slot: u32) -> Result<bool, Error> {
        let mut current = false;
        done(unsafe { raw::mdp_is_current(&mut self.raw, slot, &mut current) })?;
        Ok(current)
    }

    /// The best level of each consolidated side of the book at a slot.
    pub fn best(&mut self, slot: u32) -> Result<Best, Error> {
        let mut best = raw::Best::default();
        done(unsafe { raw::mdp_best(&mut self.raw, slot, &mut best) })?;
        Ok(Best {
            bid: (best.has_bid == 1).then_some(best.bid),
            offer: (best.has_offer == 1).then_some(best.offer),
            is_faulty: best.is_faulty == 1,
        })
    }

    /// The levels of a side of a book at a slot; a faulty book has none.
    pub fn levels(&mut self, slot: u32, book: Book, side: Side) -> Result<Levels, Error> {
        let mut levels = [Level::default(); MOST_LEVELS];
        let mut count = 0;
        let (book, side, room) = (book as u32, side as u32, levels.len());
        done(unsafe { raw::mdp_levels(&mut self.raw, slot, book, side, levels.as_mut_ptr(), room, &mut count) })?;
        Ok(levels.into_iter().take(count as usize))
    }

    /// Where the book at a slot became faulty, if it is.
    pub fn fault(&mut self, slot: u32) -> Result<Option<Fault>, Error> {
        let mut fault = raw::BookFault::default();
        done(unsafe { raw::mdp_fault(&mut self.raw, slot, &mut fault) })?;
        let place = Fault { packet: fault.packet, message: fault.message, entry: fault.entry };
        Ok((fault.is_faulty == 1).then_some(place))
    }

    /// Where the channel stands.
    pub fn state(&mut self) -> State {
        let mut state = raw::State::default();
        unsafe { raw::mdp_state(&mut self.raw, &mut state) };
        State {
            next: state.next,
            highest: state.highest,
            waiting: state.waiting,
            is_lost: state.is_lost == 1,
            stale: (state.has_stale == 1).then_some(state.stale),
        }
    }
}

impl Drop for Handler {
    fn drop(&mut self) {
        unsafe { raw::mdp_free(&mut self.raw) };
    }
}

impl fmt::Debug for Handler {
    fn fmt(&self, f: &mut fmt::Formatter<'_>) -> fmt::Result {
        f.debug_struct("Handler").finish_non_exhaustive()
    }
}

/// Tells a status by its error.
fn done(status: u32) -> Result<(), Error> {
    match status {
        0 => Ok(()),
        _ => Err(Error::of(status, None)),
    }
}
