//! What the calls of a handler answer.

use mdp_handler::{Became, Book, Error, Fate, Feed, Handler, Instrument, Level, Options, Refusal, Side, Taken};
use std::thread;

const LISTING: &[u8] = b"I 1 NEAR O\n";

/// The digits of packet 1 of examples/plain.capture: a bid of 5 at 100.
const PACKET: &str = concat!(
    "01000000000000000000000038000b002e0001000900000000000000000080000020000164000000000000000500000001",
    "00000000000000010000000100300000000000"
);

fn packet() -> Vec<u8> {
    (0..PACKET.len()).step_by(2).map(|n| u8::from_str_radix(&PACKET[n..n + 2], 16).unwrap()).collect()
}

#[test]
fn a_book_is_told_by_slot() {
    let mut handler = Handler::open_text(LISTING, &Options::default()).unwrap();
    let became = handler.datagram(Feed::A, &packet());
    assert_eq!(became, Ok(Became { taken: Taken::Packet(Fate::First), loss: None, jump: None }));
    assert_eq!(handler.lines(), b"D 1.1 NEAR B 100x5 O\nI 1.1 NEAR B O\nC 1.1 NEAR B 100x5 O\n");
    assert_eq!(handler.changed().collect::<Vec<_>>(), [0]);
    let bids = handler.levels(0, Book::Direct, Side::Bid).unwrap();
    assert_eq!(bids.collect::<Vec<_>>(), [Level { price: 100, size: 5 }]);
    assert_eq!(handler.levels(0, Book::Implied, Side::Offer).unwrap().count(), 0);
    let best = handler.best(0).unwrap();
    assert_eq!((best.bid.map(|it| it.price), best.offer, best.is_faulty), (Some(100), None, false));
    assert_eq!((handler.fault(0), handler.is_current(0)), (Ok(None), Ok(true)));
    let state = handler.state();
    assert_eq!((state.next, state.highest, state.waiting, state.is_lost, state.stale), (2, 1, 0, false, None));
    handler.clear_lines();
    assert_eq!((handler.lines().len(), handler.changed().count()), (0, 0));
    handler.close().unwrap();
    assert_eq!(handler.datagram(Feed::B, &packet()).unwrap().taken, Taken::Packet(Fate::AfterClose));
}

#[test]
fn what_is_refused_is_told() {
    let mut handler = Handler::open_text(LISTING, &Options::default()).unwrap();
    let error = handler.datagram(Feed::A, b"").unwrap_err();
    assert_eq!((error, error.to_string().as_str()), (Error::Refused(Refusal::TooShort), "1 TooShort"));
    assert_eq!(handler.datagram(Feed::A, &[0; 12]), Err(Error::Refused(Refusal::NumberZero)));
    assert_eq!(handler.datagram(Feed::S, &[0; 2049]), Err(Error::TooLong));
    let out_of_range = Error::OutOfRange { place: None };
    assert_eq!(handler.best(1), Err(out_of_range));
    assert_eq!(handler.is_current(u32::MAX), Err(out_of_range));
    assert_eq!(handler.fault(512), Err(out_of_range));
    assert_eq!(handler.levels(1, Book::Direct, Side::Bid).err(), Some(out_of_range));
}

#[test]
fn instruments_are_judged() {
    let open = |instruments: &[Instrument]| Handler::open(instruments, &Options::default()).err();
    let near = Instrument::outright(1, "NEAR", 10);
    let far = Instrument::outright(2, "FAR", 5);
    assert_eq!(open(&[near, far, Instrument::calendar(3, "CAL", 1, 2)]), None);
    assert_eq!(open(&[]), Some(Error::NoneListed));
    assert_eq!(open(&[near, near]), Some(Error::DuplicateId { place: 1 }));
    assert_eq!(open(&[near, Instrument::calendar(3, "CAL", 1, 2)]), Some(Error::UnknownLeg { place: 1 }));
    assert_eq!(open(&[Instrument::outright(1, "A NAME", 10)]), Some(Error::OutOfRange { place: Some(0) }));
    assert_eq!(open(&[Instrument::outright(1, &"N".repeat(300), 10)]), Some(Error::OutOfRange { place: Some(0) }));
    let window = Options { window: 0, ..Options::default() };
    assert_eq!(Handler::open_text(LISTING, &window).err(), Some(Error::OutOfRange { place: None }));
    assert_eq!(Handler::open_text(b"Q\n", &Options::default()).err(), Some(Error::LineForm { place: 1 }));
}

#[test]
fn another_thread_goes_on() {
    let mut handler = Handler::open_text(LISTING, &Options::default()).unwrap();
    let mut other = Handler::open_text(LISTING, &Options::default()).unwrap();
    let there = thread::spawn(move || {
        handler.datagram(Feed::A, &packet()).unwrap();
        handler
    });
    other.datagram(Feed::A, &packet()).unwrap();
    assert_eq!(there.join().unwrap().lines(), other.lines());
}
