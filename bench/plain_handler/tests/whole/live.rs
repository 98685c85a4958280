//! A capture that comes in pieces gives the text of the whole.

use crate::streams::{Slow, Text};
use plain_handler::live::{MakesPrinter, run_capture};
use plain_handler::notes::Notes;
use plain_handler::receiver::{Receiver, Start};
use plain_handler::records::{handle, read_capture};
use plain_handler::shows::Printer;
use std::fs;
use std::io::{self, Read};
use std::path::Path;

const START: Start = Start { window: 4, joins: false };

/// Gives the text of a capture that comes in pieces and is handled once all of it is there; none where it is refused.
fn whole(capture: &[u8], piece: usize) -> Option<Vec<u8>> {
    let (listing, records) = read_capture(Slow(capture, piece), capture.len()).ok()?;
    let mut text = Vec::new();
    let mut receiver = Receiver::new(listing.instruments(), START, Printer::new(listing.instruments(), &mut text));
    handle(&records, &mut receiver);
    receiver.end();
    Some(text)
}

/// Gives the text of a capture that comes in pieces and is handled as it comes; none where it is refused.
fn live(capture: &[u8], piece: usize) -> Option<Vec<u8>> {
    let text = Text::default();
    let (listing, receiver) = run_capture(Slow(capture, piece), START, MakesPrinter(text.clone()), Notes::Nowhere);
    receiver?.end();
    listing.ok()?;
    Some(text.0.take())
}

/// Gives the captures of all rows and examples.
fn captures() -> Vec<Vec<u8>> {
    let root = Path::new(env!("CARGO_MANIFEST_DIR")).join("../..");
    let rows = fs::read_dir(root.join("tests/rows")).unwrap().map(|row| row.unwrap().path().join("capture"));
    let examples = ["plain", "recovery", "join", "spread"].map(|name| root.join(format!("examples/{name}.capture")));
    rows.chain(examples).filter_map(|file| fs::read(file).ok()).collect()
}

#[test]
fn the_text_is_the_same_in_all_pieces() {
    let captures = captures();
    assert!(captures.len() > 50);
    for capture in captures {
        let wanted = whole(&capture, usize::MAX);
        for piece in [1, 2, 7, 4096, usize::MAX] {
            if capture.len() / piece < 100_000 {
                assert_eq!(whole(&capture, piece), wanted);
                assert_eq!(live(&capture, piece), wanted);
            }
        }
    }
}

#[test]
fn each_record_is_shown_before_the_next_is_read() {
    /// Gives a line a read, and notes how much text there was before it.
    struct Lines<'a>(std::slice::SplitInclusive<'a, u8, fn(&u8) -> bool>, Text, Vec<usize>);

    impl Read for Lines<'_> {
        fn read(&mut self, buffer: &mut [u8]) -> io::Result<usize> {
            self.2.push(self.1.0.borrow().len());
            let line = self.0.next().unwrap_or(&[]);
            buffer[..line.len()].copy_from_slice(line);
            Ok(line.len())
        }
    }

    let root = Path::new(env!("CARGO_MANIFEST_DIR")).join("../..");
    let capture = fs::read(root.join("examples/plain.capture")).unwrap();
    let text = Text::default();
    let is_end: fn(&u8) -> bool = |byte| *byte == b'\n';
    let mut lines = Lines(capture.split_inclusive(is_end), text.clone(), Vec::new());
    let (_, receiver) = run_capture(&mut lines, START, MakesPrinter(text.clone()), Notes::Nowhere);
    receiver.unwrap().end();
    // The capture has an instrument and three packets, each of which prints three lines.
    let seen = lines.2;
    assert_eq!(seen.len(), 5);
    assert_eq!(seen[..2], [0, 0]);
    assert!(seen[1] < seen[2] && seen[2] < seen[3] && seen[3] < seen[4], "{seen:?}");
}
