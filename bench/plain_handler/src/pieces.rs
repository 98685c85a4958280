//! Short texts that are copied in blocks of a fixed size.

use std::ptr::{copy, copy_nonoverlapping};

/// Copies `length` bytes in blocks of 64.
///
/// # Safety
/// Up to 63 bytes more are readable and writable; `to` doesn't lie within the bytes that are copied.
#[inline(always)]
pub unsafe fn copy_blocks(to: *mut u8, from: *const u8, length: usize) -> *mut u8 {
    unsafe {
        let mut done = 0;
        while done < length {
            // A block may run over into the place that it goes to.
            copy(from.add(done), to.add(done), 64);
            done += 64;
        }
        to.add(length)
    }
}

/// A text of at most 32 bytes, copied in one block.
#[derive(Clone, Copy)]
#[repr(C, align(32))]
pub struct Piece {
    bytes: [u8; 32],
    length: usize,
}

impl Piece {
    /// Joins texts of at most 32 bytes together.
    pub fn of(parts: &[&[u8]]) -> Piece {
        let text = parts.concat();
        let mut bytes = [0; 32];
        bytes[..text.len()].copy_from_slice(&text);
        Piece { bytes, length: text.len() }
    }

    /// Lets `put` fill the piece; it gives the place after what it put.
    ///
    /// # Safety
    /// `put` writes to at most 32 bytes.
    #[inline(always)]
    pub unsafe fn filled(put: impl FnOnce(*mut u8) -> *mut u8) -> Piece {
        let mut bytes = [0; 32];
        let start = bytes.as_mut_ptr();
        let end = put(start);
        Piece { bytes, length: unsafe { end.offset_from(start) } as usize }
    }

    /// Puts the text.
    ///
    /// # Safety
    /// 32 bytes are writable at `to`.
    #[inline(always)]
    pub unsafe fn put(&self, to: *mut u8) -> *mut u8 {
        unsafe {
            copy_nonoverlapping(self.bytes.as_ptr(), to, 32);
            to.add(self.length)
        }
    }
}
