//! Why a text isn't read.

use crate::ffi::Answer;
use crate::limits::{DIAGNOSTIC_CELLS, MAX_MARKS, MAX_NOTES, MAX_PITCHES, MAX_TEXT_BYTES};
use crate::word::UnknownWord;
use std::error::Error;
use std::fmt;

/// Why a text isn't read. A `place` is that of the token in the data, in characters from 1.
#[derive(Clone, Copy, Debug, PartialEq, Eq, Hash)]
#[non_exhaustive]
pub enum Refusal {
    /// 1: the text is over [`MAX_TEXT_BYTES`].
    TooLarge {
        /// The text's length in bytes.
        length: usize,
    },
    /// 2: the diagnostics' buffer has fewer than [`DIAGNOSTIC_CELLS`]; never from
    /// [`read`](crate::read).
    DiagnosticCells {
        /// The number of its cells.
        cells: usize,
    },
    /// 3: the text is malformed UTF-8; never of a `&str` or `String`.
    MalformedUtf8 {
        /// The offset from 0 of the first byte that belongs to no character, as
        /// [`Utf8Error::valid_up_to`](std::str::Utf8Error::valid_up_to) tells it.
        offset: usize,
    },
    /// 4: the text is blank.
    Blank,
    /// 5: the text is in field form and has no data field.
    NoData,
    /// 7: the notes would pass [`MAX_NOTES`].
    TooManyNotes {
        /// The place of the token that would store them.
        place: u32,
    },
    /// 8: the notes don't fit their buffer; never from [`read`](crate::read).
    NoteRecords {
        /// The place of the token that would store them.
        place: u32,
    },
    /// 9: a chord would pass [`MAX_PITCHES`].
    TooManyPitches {
        /// The place of the letter that would join it.
        place: u32,
    },
    /// 10: a note's marks would pass [`MAX_MARKS`].
    TooManyMarks {
        /// The place of the `t` or `)` that would add the mark.
        place: u32,
    },
    /// 11: a figure doesn't fit its buffer; never from [`read`](crate::read).
    FigureRecords {
        /// The place of the closing `!`.
        place: u32,
    },
    /// 12: the bars don't fit their buffer; never from [`read`](crate::read).
    BarRecords {
        /// The place of the barline, or of the `=` that has it; at the data's end, its length in
        /// characters plus 1.
        place: u32,
    },
    /// 13: the data store no note and no rest.
    NoNotes,
    /// Not the reader's: crate and library don't belong together.
    Unknown(UnknownWord),
}

impl Refusal {
    /// The refusal that `answer` tells of `text` and so many diagnostic `cells`.
    pub(crate) fn from_answer(answer: &Answer, text: &[u8], cells: usize) -> Self {
        let place = answer.place;
        match answer.number {
            1 => Self::TooLarge { length: text.len() },
            2 => Self::DiagnosticCells { cells },
            3 => Self::MalformedUtf8 {
                offset: well_formed_bytes(text),
            },
            4 => Self::Blank,
            5 => Self::NoData,
            7 => Self::TooManyNotes { place },
            8 => Self::NoteRecords { place },
            9 => Self::TooManyPitches { place },
            10 => Self::TooManyMarks { place },
            11 => Self::FigureRecords { place },
            12 => Self::BarRecords { place },
            13 => Self::NoNotes,
            number => Self::Unknown(UnknownWord::new("refusal", number)),
        }
    }

    /// The refusal's number, 1 to 13; 6 isn't given.
    #[must_use]
    pub fn number(&self) -> Option<u32> {
        Some(match self {
            Self::TooLarge { .. } => 1,
            Self::DiagnosticCells { .. } => 2,
            Self::MalformedUtf8 { .. } => 3,
            Self::Blank => 4,
            Self::NoData => 5,
            Self::TooManyNotes { .. } => 7,
            Self::NoteRecords { .. } => 8,
            Self::TooManyPitches { .. } => 9,
            Self::TooManyMarks { .. } => 10,
            Self::FigureRecords { .. } => 11,
            Self::BarRecords { .. } => 12,
            Self::NoNotes => 13,
            Self::Unknown(_) => return None,
        })
    }

    /// The place in the data, in characters from 1, where the refusal has one.
    #[must_use]
    pub fn place(&self) -> Option<u32> {
        match *self {
            Self::TooManyNotes { place }
            | Self::NoteRecords { place }
            | Self::TooManyPitches { place }
            | Self::TooManyMarks { place }
            | Self::FigureRecords { place }
            | Self::BarRecords { place } => Some(place),
            Self::TooLarge { .. }
            | Self::DiagnosticCells { .. }
            | Self::MalformedUtf8 { .. }
            | Self::Blank
            | Self::NoData
            | Self::NoNotes
            | Self::Unknown(_) => None,
        }
    }

    fn reason(&self, f: &mut fmt::Formatter<'_>) -> fmt::Result {
        match self {
            Self::TooLarge { length } => {
                write!(f, "the text has {length} bytes, over {MAX_TEXT_BYTES}")
            }
            Self::DiagnosticCells { cells } => {
                write!(
                    f,
                    "the buffer has {cells} diagnostic cells, under {DIAGNOSTIC_CELLS}"
                )
            }
            Self::MalformedUtf8 { offset } => {
                write!(
                    f,
                    "the text is malformed UTF-8 from byte offset {offset} on"
                )
            }
            Self::Blank => f.write_str("the text is blank"),
            Self::NoData => f.write_str("the text has fields, but none is @data:"),
            Self::TooManyNotes { .. } => write!(f, "the notes pass {MAX_NOTES}"),
            Self::NoteRecords { .. } => f.write_str("the notes don't fit their buffer"),
            Self::TooManyPitches { .. } => write!(f, "the chord passes {MAX_PITCHES} pitches"),
            Self::TooManyMarks { .. } => write!(f, "the note's marks pass {MAX_MARKS}"),
            Self::FigureRecords { .. } => f.write_str("the figure doesn't fit its buffer"),
            Self::BarRecords { .. } => f.write_str("the bars don't fit their buffer"),
            Self::NoNotes => f.write_str("the data hold no note and no rest"),
            Self::Unknown(unknown) => write!(f, "{unknown}"),
        }
    }
}

/// How many bytes are well-formed at the text's start.
fn well_formed_bytes(text: &[u8]) -> usize {
    str::from_utf8(text).map_or_else(|error| error.valid_up_to(), str::len)
}

impl fmt::Display for Refusal {
    fn fmt(&self, f: &mut fmt::Formatter<'_>) -> fmt::Result {
        if let Some(number) = self.number() {
            write!(f, "refused {number}")?;
            if let Some(place) = self.place() {
                write!(f, " at data place {place}")?;
            }
            f.write_str(": ")?;
        }
        self.reason(f)
    }
}

impl Error for Refusal {}

impl From<UnknownWord> for Refusal {
    fn from(unknown: UnknownWord) -> Self {
        Self::Unknown(unknown)
    }
}

#[cfg(test)]
mod tests {
    use super::*;

    #[test]
    fn a_number_of_another_version() {
        let answer = Answer {
            number: 99,
            place: 7,
            notes: 0,
            bars: 0,
            diagnostics: 0,
        };
        let refusal = Refusal::from_answer(&answer, b"C", DIAGNOSTIC_CELLS);
        assert_eq!((refusal.number(), refusal.place()), (None, None));
        let message = "99 is no refusal to this crate: libpae.a is of another version";
        assert_eq!(refusal.to_string(), message);
    }
}
