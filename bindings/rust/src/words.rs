//! The records as the reader lays them out: words of 32 bits, and which word means what.

use crate::limits::MAX_PITCHES;
use std::ops::Range;

/// The words of a pitch in a note record.
pub const PITCH_WORDS: usize = 4;

/// The words of a note record, and of a figure record.
pub const NOTE_WORDS: usize = note::PITCHES + MAX_PITCHES * PITCH_WORDS;

/// The words of a bar record.
pub const BAR_WORDS: usize = 10;

/// A note record.
pub type NoteWords = [i32; NOTE_WORDS];

/// A bar record.
pub type BarWords = [i32; BAR_WORDS];

/// A diagnostic as the reader stores it.
#[repr(C)]
#[derive(Clone, Copy, Debug, Default, PartialEq, Eq, Hash)]
pub struct DiagnosticCell {
    /// Its number, see [`DiagnosticKind`](crate::DiagnosticKind); 0 in a cell that holds none.
    pub number: i32,
    /// What `place` counts: 1 lines, 2 lines (of an unsupported field), 3 characters of the data.
    pub place_kind: i32,
    /// The place, from 1.
    pub place: i32,
    /// What the value is: 1 a part of the text, 2 the value `()`, 3 a number.
    pub value_kind: i32,
    /// The offset in bytes, from 0, of the value in the text, or the number.
    pub start: i32,
    /// The offset in bytes where the value ends in the text.
    pub end: i32,
}

impl DiagnosticCell {
    /// The bytes of the text that are the value, if the value is a part of it.
    #[must_use]
    pub fn span(&self) -> Option<Range<usize>> {
        let start = usize::try_from(self.start).ok()?;
        let end = usize::try_from(self.end).ok()?;
        (self.value_kind == 1).then_some(start..end)
    }

    /// The part of the text that was read which is the value, if the value is one.
    #[must_use]
    pub fn part<'t>(&self, text: &'t [u8]) -> Option<&'t [u8]> {
        text.get(self.span()?)
    }
}

/// The words of a note record, by index.
pub mod note {
    /// The place in the data of the token that stored the record, in characters from 1.
    pub const PLACE: usize = 0;
    /// The kind, see [`NoteKind`](crate::NoteKind).
    pub const KIND: usize = 1;
    /// The duration, see [`Duration`](crate::Duration); 0 for a whole-bar rest, which has none.
    pub const DURATION: usize = 2;
    /// The number of dots, 0 to 3.
    pub const DOTS: usize = 3;
    /// The ties, see [`Ties`](crate::Ties).
    pub const TIES: usize = 4;
    /// The beam, see [`BeamState`](crate::BeamState).
    pub const BEAM: usize = 5;
    /// The notes of the tuplet; 0 where there is none.
    pub const TUPLET_ACTUAL: usize = 6;
    /// The notes in whose time they are played; 0 where there is no tuplet.
    pub const TUPLET_NORMAL: usize = 7;
    /// The number of marks.
    pub const MARK_COUNT: usize = 8;
    /// The marks, bit i being mark i in order of arrival, see [`Articulation`](crate::Articulation).
    pub const MARKS: usize = 9;
    /// The number of pitches.
    pub const PITCH_COUNT: usize = 10;
    /// The number of the bar, from 1.
    pub const BAR: usize = 11;
    /// The first of the pitches, see [`pitch`](super::pitch).
    pub const PITCHES: usize = 12;
}

/// The words of a pitch, by index from its first word.
pub mod pitch {
    /// The place of the letter in the data, in characters from 1.
    pub const PLACE: usize = 0;
    /// The step, see [`Step`](crate::Step).
    pub const STEP: usize = 1;
    /// The octave, 0 to 9; 4 begins at middle C.
    pub const OCTAVE: usize = 2;
    /// The alteration in semitones, -2 to 2.
    pub const ALTER: usize = 3;
}

/// The words of a bar record, by index.
pub mod bar {
    /// The bar's first note, from 0.
    pub const FIRST_NOTE: usize = 0;
    /// The number of notes.
    pub const NOTE_COUNT: usize = 1;
    /// The clef, see [`Clef`](crate::Clef); 0 where none is set.
    pub const CLEF: usize = 2;
    /// 1 where a key is set, else 0.
    pub const KEY_SET: usize = 3;
    /// The key's fifths, -7 to 7.
    pub const FIFTHS: usize = 4;
    /// The meter's numerator; 0 where none is set.
    pub const NUMERATOR: usize = 5;
    /// The meter's denominator; 0 where none is set.
    pub const DENOMINATOR: usize = 6;
    /// The meter's symbol, see [`TimeSymbol`](crate::TimeSymbol); 0 where it has none.
    pub const SYMBOL: usize = 7;
    /// The left barline, see [`Barline`](crate::Barline).
    pub const LEFT: usize = 8;
    /// The right barline.
    pub const RIGHT: usize = 9;
}
