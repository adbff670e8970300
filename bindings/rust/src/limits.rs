//! The reader's own limits.

/// The longest text that is read, in bytes.
pub const MAX_TEXT_BYTES: usize = 65_535;

/// The most notes that a reading stores, rests and copies included.
pub const MAX_NOTES: usize = 100_000;

/// The most bars of one `=`.
pub const MAX_WHOLE_BARS: usize = 1_000;

/// The most pitches of one note.
pub const MAX_PITCHES: usize = 8;

/// The most marks of one note.
pub const MAX_MARKS: usize = 8;

/// The fewest diagnostic cells that a buffer may have, and the most diagnostics that are stored.
pub const DIAGNOSTIC_CELLS: usize = 1_024;
