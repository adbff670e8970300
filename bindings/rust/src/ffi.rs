//! The library's functions.

use crate::words::DiagnosticCell;

/// The answer: the refusal's number (0: accepted) and place, and the counts of stored records.
#[repr(C)]
pub struct Answer {
    pub number: u32,
    pub place: u32,
    pub notes: u32,
    pub bars: u32,
    pub diagnostics: u32,
}

/// The card writer's answer: the refusal's number (0: written) and the card's length.
#[repr(C)]
pub struct CardWritten {
    pub number: u32,
    pub length: u32,
}

/// The card reader's answer: the refusal's number (0: read) and the counts of stored records.
#[repr(C)]
pub struct CardRead {
    pub number: u32,
    pub notes: u32,
    pub bars: u32,
}

unsafe extern "C" {
    /// The reader's number.
    pub safe fn pae_version() -> u32;

    fn pae_read(
        text: *const u8,
        text_len: usize,
        notes: *mut i32,
        notes_len: usize,
        bars: *mut i32,
        bars_len: usize,
        figure: *mut i32,
        figure_len: usize,
        diagnostics: *mut DiagnosticCell,
        diagnostics_len: usize,
    ) -> Answer;

    fn pae_write_card(
        notes: *const i32,
        notes_len: usize,
        bars: *const i32,
        bars_len: usize,
        card: *mut u8,
        card_len: usize,
    ) -> CardWritten;

    fn pae_read_card(
        card: *const u8,
        card_len: usize,
        notes: *mut i32,
        notes_len: usize,
        bars: *mut i32,
        bars_len: usize,
    ) -> CardRead;
}

/// Reads `text` into the slices.
pub fn read(
    text: &[u8],
    notes: &mut [i32],
    bars: &mut [i32],
    figure: &mut [i32],
    diagnostics: &mut [DiagnosticCell],
) -> Answer {
    // SAFETY: each pointer and length are those of one slice, so they are non-null and aligned,
    // stand for that many initialised values, and no writable one overlaps another. For any text
    // and any lengths the function is proved to read and write only within these slices; it keeps
    // no pointer, and every value of an `i32` is a value that it may write.
    unsafe {
        pae_read(
            text.as_ptr(),
            text.len(),
            notes.as_mut_ptr(),
            notes.len(),
            bars.as_mut_ptr(),
            bars.len(),
            figure.as_mut_ptr(),
            figure.len(),
            diagnostics.as_mut_ptr(),
            diagnostics.len(),
        )
    }
}

/// Writes the card of the records into the slice `card`.
pub fn write_card(notes: &[i32], bars: &[i32], card: &mut [u8]) -> CardWritten {
    // SAFETY: as in `read`; every value of a `u8` is a value that the function may write.
    unsafe {
        pae_write_card(
            notes.as_ptr(),
            notes.len(),
            bars.as_ptr(),
            bars.len(),
            card.as_mut_ptr(),
            card.len(),
        )
    }
}

/// Reads `card` into the slices.
pub fn read_card(card: &[u8], notes: &mut [i32], bars: &mut [i32]) -> CardRead {
    // SAFETY: as in `read`.
    unsafe {
        pae_read_card(
            card.as_ptr(),
            card.len(),
            notes.as_mut_ptr(),
            notes.len(),
            bars.as_mut_ptr(),
            bars.len(),
        )
    }
}
