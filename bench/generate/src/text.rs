//! A capture: instruments and datagrams as lines of text.

use crate::feeds::Arrival;
use crate::market::{DEPTH, Market};
use std::io::{self, Write};

/// Writes a line for each instrument.
pub fn write_instruments(market: &Market, out: &mut impl Write) -> io::Result<()> {
    for security in &market.list {
        let (id, name) = (security.id, &security.name);
        match security.legs {
            None if security.depth() == DEPTH => writeln!(out, "I {id} {name} O")?,
            None => writeln!(out, "I {id} {name} O {}", security.depth())?,
            Some((bought, sold)) => {
                writeln!(out, "I {id} {name} C {} {}", market.list[bought].id, market.list[sold].id)?;
            }
        }
    }
    Ok(())
}

/// Writes a datagram's line; `line` is a place to put it together.
pub fn write_arrival(arrival: &Arrival, line: &mut Vec<u8>, out: &mut impl Write) -> io::Result<()> {
    const DIGITS: &[u8; 16] = b"0123456789abcdef";
    line.clear();
    line.extend([arrival.feed.letter(), b' ']);
    for byte in &arrival.bytes {
        line.extend([DIGITS[usize::from(byte >> 4)], DIGITS[usize::from(byte & 15)]]);
    }
    line.push(b'\n');
    out.write_all(line)
}
