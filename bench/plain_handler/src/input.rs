//! Input that comes piece by piece.

use std::io::{self, Read};

/// How many bytes are asked of a read.
const PIECE: usize = 256 * 1024;

/// Bytes that were read and not taken yet, with zeros behind them.
pub struct Input<R: Read> {
    reader: R,
    buffer: Vec<u8>,
    end: usize,
    slack: usize,
    is_over: bool,
}

impl<R: Read> Input<R> {
    /// Begins to read, with so many zeros behind what is read.
    pub fn new(reader: R, slack: usize) -> Input<R> {
        Input { reader, buffer: vec![0; PIECE + slack], end: 0, slack, is_over: false }
    }

    /// Tells whether a read found the end.
    pub fn is_over(&self) -> bool {
        self.is_over
    }

    /// Gives the bytes that weren't taken, and how many of them were read; behind them stand the zeros.
    pub fn bytes(&self) -> (&[u8], usize) {
        (&self.buffer, self.end)
    }

    /// Lets the first bytes go.
    pub fn take(&mut self, count: usize) {
        self.buffer.copy_within(count..self.end, 0);
        self.end -= count;
    }

    /// Reads once more. A read that failed is not tried again.
    pub fn read_more(&mut self) -> io::Result<()> {
        if self.end + self.slack == self.buffer.len() {
            self.buffer.resize(2 * self.buffer.len(), 0);
        }
        let room = self.buffer.len() - self.slack;
        let count = self.reader.read(&mut self.buffer[self.end..room])?;
        self.end += count;
        self.buffer[self.end..self.end + self.slack].fill(0);
        self.is_over = count == 0;
        Ok(())
    }
}

#[cfg(test)]
mod tests {
    use super::*;

    /// Gives its bytes a few at a time.
    struct Slow<'a>(&'a [u8], usize);

    impl Read for Slow<'_> {
        fn read(&mut self, buffer: &mut [u8]) -> io::Result<usize> {
            let count = self.1.min(self.0.len()).min(buffer.len());
            buffer[..count].copy_from_slice(&self.0[..count]);
            self.0 = &self.0[count..];
            Ok(count)
        }
    }

    #[test]
    fn all_bytes_come_in_order_with_zeros_behind_them() {
        let whole: Vec<u8> = (1..=255).cycle().take(700_000).collect();
        for (piece, taken) in [(1 << 20, 100_000), (5_000, 1), (300_000, 0)] {
            let mut input = Input::new(Slow(&whole, piece), 64);
            let mut seen = Vec::new();
            while !input.is_over() {
                input.read_more().unwrap();
                let (bytes, end) = input.bytes();
                assert!(bytes[end..end + 64].iter().all(|byte| *byte == 0));
                let count = taken.min(end);
                seen.extend_from_slice(&bytes[..count]);
                input.take(count);
            }
            let (bytes, end) = input.bytes();
            seen.extend_from_slice(&bytes[..end]);
            assert!(seen == whole);
        }
    }
}
