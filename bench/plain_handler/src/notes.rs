//! What is told on standard error. A failed write there is passed over.

use crate::instruments::Instrument;
use crate::receiver::{News, Receiver};
use crate::shows::Shows;
use std::io::Write;

/// Where notes go.
#[derive(Clone, Copy, PartialEq, Eq, Debug)]
pub enum Notes {
    StandardError,
    Nowhere,
}

impl Notes {
    /// Tells a line.
    #[cold]
    #[inline(never)]
    pub fn tell(self, line: &str) {
        if self == Notes::StandardError {
            let _ = writeln!(std::io::stderr(), "{line}");
        }
    }

    /// Tells what the record at a place, as `line 5`, made of the receiver.
    #[inline(always)]
    pub fn tell_news<S: Shows>(self, receiver: &mut Receiver<S>, kind: &str, place: u64) {
        if receiver.has_news() {
            self.tell_news_of(receiver.take_news(), kind, place);
        }
    }

    #[cold]
    #[inline(never)]
    fn tell_news_of(self, news: News, kind: &str, place: u64) {
        if let Some((next, highest)) = news.lost {
            self.tell(&format!("{kind} {place}: 51 Lost {next} {highest}"));
        }
        if let Some((old, new)) = news.found {
            self.tell(&format!("{kind} {place}: 52 Found {old} {new}"));
        }
    }

    /// Tells why packets are missing at the end of a run, if they are.
    pub fn tell_end<S: Shows>(self, receiver: &Receiver<S>, instruments: &[Instrument]) {
        let held = receiver.held();
        if !receiver.is_lost() && held > 0 {
            self.tell(&format!("53 Waits {} {held}", receiver.standing().next));
        }
        if receiver.is_lost()
            && let Some(slot) = receiver.first_stale()
        {
            let Instrument { id, name, .. } = &instruments[slot];
            self.tell(&format!("54 NoSnapshot {id} {}", String::from_utf8_lossy(name)));
        }
    }
}
