//! Deliberately wrong answers, one a feature. Without features each passes its answer on.

use crate::bytes::call::Element;
use crate::bytes::expect::MOST;
use crate::bytes::memory::Lent;

impl Lent {
    /// The lent bytes. The memory must be a `Memory`'s and not borrowed elsewhere.
    unsafe fn bytes<'a>(self) -> &'a mut [u8] {
        std::slice::from_raw_parts_mut(self.at, self.length)
    }
}

/// A refused column moves the sheet's last byte.
pub fn column(sheet: Lent, answer: u64) -> u64 {
    if cfg!(feature = "broken_refused_column") && answer > 0 && answer != 256 {
        if let Some(byte) = unsafe { sheet.bytes() }.last_mut() {
            *byte ^= 1;
        }
    }
    answer
}

/// The bytes of a selector's last row stand in the other order.
pub fn row(rows: Lent, answer: u64) -> u64 {
    if cfg!(feature = "broken_row_bytes") && answer % 256 == 0 && answer > 0 {
        let last = (answer / 256) as usize - 1;
        let bytes = unsafe { rows.bytes() };
        bytes[4 * last..4 * last + 4].reverse();
    }
    answer
}

/// Bytes after the last whole row are passed over.
pub fn rows(rows: Lent) -> Lent {
    if cfg!(feature = "broken_ragged_rows") {
        return Lent { length: rows.length / 4 * 4, ..rows };
    }
    rows
}

/// A part of more words than are held is handed back as one of those.
pub fn part(mode: u32, count: usize, parameter: Lent, selection: Lent, part: u64) -> u64 {
    let sheet = if mode == 0 { parameter } else { selection };
    let served = mode < 2 && sheet.length / 8 > MOST && count <= sheet.length / 8;
    if cfg!(feature = "broken_long_part") && served && part == 0 {
        return count.min(MOST) as u64;
    }
    part
}

/// The sign is taken for its magnitude.
pub fn sign(element: &Element, out: Lent, answer: u64) -> u64 {
    if cfg!(feature = "broken_lost_sign") && answer == 256 && element.sign < 0.0 {
        let bytes = unsafe { out.bytes() };
        bytes[7] ^= 0x80;
    }
    answer
}

/// An accepted scale is not counted.
pub fn count(answer: u64) -> u64 {
    if cfg!(feature = "broken_scale_count") && answer == 256 {
        return 0;
    }
    answer
}
