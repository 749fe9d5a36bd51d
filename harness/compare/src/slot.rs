//! Memory for one lent slice of any length.

use crate::abi::guarded_end_of;

/// Bytes that end where the next page may not be touched.
pub struct Slot {
    end: *mut u8,
    room: usize,
    length: usize,
}

impl Slot {
    pub fn new(room: usize) -> Slot {
        Slot { end: guarded_end_of(room), room, length: 0 }
    }

    pub fn fill(&mut self, bytes: &[u8]) {
        assert!(bytes.len() <= self.room, "a slice has its place in a slot");
        self.length = bytes.len();
        unsafe { std::ptr::copy_nonoverlapping(bytes.as_ptr(), self.start(), bytes.len()) };
    }

    pub fn start(&self) -> *mut u8 {
        unsafe { self.end.sub(self.length) }
    }

    /// Bytes of the slice.
    pub fn length(&self) -> usize {
        self.length
    }

    pub fn bytes(&self) -> &[u8] {
        unsafe { std::slice::from_raw_parts(self.start(), self.length) }
    }
}
