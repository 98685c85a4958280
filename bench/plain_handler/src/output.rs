//! The text on its way out: one buffer, written when it is full.

use std::io::Write;

/// How many bytes are held before they are written.
const FULL: usize = 128 * 1024;

/// How many bytes can be put at once.
pub const ROOM: usize = 8 * 1024;

/// Text, and where it is written. A write that failed is not tried again, and nothing is written after it.
pub struct Output<W: Write> {
    buffer: Vec<u8>,
    writer: W,
    written: u64,
    has_failed: bool,
}

impl<W: Write> Output<W> {
    pub fn new(writer: W) -> Output<W> {
        Output { buffer: Vec::with_capacity(FULL + ROOM), writer, written: 0, has_failed: false }
    }

    /// Lends a place with `ROOM` bytes for the next text.
    #[inline(always)]
    pub fn room(&mut self) -> *mut u8 {
        if self.buffer.len() >= FULL {
            self.flush();
        }
        unsafe { self.buffer.as_mut_ptr().add(self.buffer.len()) }
    }

    /// Takes the text that was put into the place that was lent last, up to its end.
    ///
    /// # Safety
    /// The end lies at most `ROOM` bytes behind that place, and all bytes before it were written.
    #[inline(always)]
    pub unsafe fn put_up_to(&mut self, end: *mut u8) {
        unsafe { self.buffer.set_len(end.offset_from(self.buffer.as_ptr()) as usize) };
    }

    /// Puts a text of any length.
    pub fn text(&mut self, text: &[u8]) {
        for part in text.chunks(ROOM) {
            if self.buffer.len() >= FULL {
                self.flush();
            }
            self.buffer.extend_from_slice(part);
        }
    }

    /// Writes what is held.
    #[inline(never)]
    pub fn flush(&mut self) {
        let mut rest = self.buffer.as_slice();
        while !rest.is_empty() && !self.has_failed {
            match self.writer.write(rest) {
                Ok(count) if count > 0 => {
                    self.written += count as u64;
                    rest = &rest[count..];
                }
                _ => self.has_failed = true,
            }
        }
        self.buffer.clear();
    }

    pub fn has_failed(&self) -> bool {
        self.has_failed
    }

    /// Gives how many bytes went out.
    pub fn written(&self) -> u64 {
        self.written
    }

    /// Gives the writer back.
    pub fn into_writer(self) -> W {
        self.writer
    }
}
