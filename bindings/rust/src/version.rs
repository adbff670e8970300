//! Which reader this is.

use crate::ffi;

/// The reader's number, raised by each landing after which some text, records or card may be
/// answered otherwise than before. Store it beside a reading or a card, to know later what read it.
///
/// | number | what came with it |
/// |---|---|
/// | 1 | the base |
/// | 2 | texts in UTF-8 |
/// | 3 | rests of whole bars |
/// | 4 | groups, beams and figures closed in a later bar are dropped |
///
/// It is the linked library's own, not the crate's.
#[must_use]
pub fn version() -> u32 {
    ffi::pae_version()
}
