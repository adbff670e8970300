//! Reading into owned values.

use crate::bar::Bar;
use crate::buffers::{Buffers, Records, read_into};
use crate::diagnostic::Diagnostic;
use crate::limits::{DIAGNOSTIC_CELLS, MAX_NOTES};
use crate::note::Note;
use crate::refusal::Refusal;
use crate::word::UnknownWord;
use crate::words::{BAR_WORDS, DiagnosticCell, NOTE_WORDS};

/// What a text or a card reads to.
///
/// Two readings are equal where their notes, bars and diagnostics are. Where a [`Note`] stands in
/// its text doesn't matter to that, where a [`Diagnostic`] stands does; to leave the diagnostics
/// out, compare `notes` and `bars`.
#[derive(Clone, Debug, PartialEq, Eq, Hash)]
pub struct Reading {
    /// The notes and rests of all bars.
    pub notes: Vec<Note>,
    /// The bars, each with at least one note.
    pub bars: Vec<Bar>,
    /// What was found amiss, first in the fields, then in the data; at most [`DIAGNOSTIC_CELLS`],
    /// and none of a card.
    pub diagnostics: Vec<Diagnostic>,
}

impl Reading {
    /// The notes of one of this reading's bars.
    #[must_use]
    pub fn notes_of(&self, bar: &Bar) -> &[Note] {
        self.notes
            .get(bar.first_note..)
            .and_then(|notes| notes.get(..bar.note_count))
            .unwrap_or_default()
    }

    pub(crate) fn from_records(records: &Records<'_>, text: &[u8]) -> Result<Self, UnknownWord> {
        let diagnostic = |cell: &_| Diagnostic::from_cell(cell, text);
        Ok(Self {
            notes: each(records.notes, Note::from_words)?,
            bars: each(records.bars, Bar::from_words)?,
            diagnostics: each(records.diagnostics, diagnostic)?,
        })
    }
}

fn each<R, T>(
    records: &[R],
    meaning: impl Fn(&R) -> Result<T, UnknownWord>,
) -> Result<Vec<T>, UnknownWord> {
    records.iter().map(meaning).collect()
}

/// Reads a text in UTF-8: bare data, or fields one to a line. It never panics, and refuses only what
/// the reader itself can't read, never for want of room. Any bytes may be given; a `&str` or
/// `String` is never refused as [malformed](Refusal::MalformedUtf8).
///
/// # Errors
///
/// The [`Refusal`] of what can't be read, with its place.
pub fn read(text: impl AsRef<[u8]>) -> Result<Reading, Refusal> {
    let text = text.as_ref();
    read_growing(text, Room::for_text(text))
}

/// The numbers of records in the buffers.
#[derive(Clone, Copy)]
struct Room {
    notes: usize,
    bars: usize,
    figure: usize,
}

impl Room {
    /// As many records as the text stores without repeats and counts; those can only be found by
    /// reading.
    fn for_text(text: &[u8]) -> Self {
        let notes = count(text, |byte| matches!(byte, b'A'..=b'G' | b'-' | b'='));
        let bars = count(text, |byte| byte == b'/') + 1;
        let figure = if text.contains(&b'!') { notes } else { 0 };
        Self {
            notes: notes.min(MAX_NOTES),
            bars: bars.min(MAX_NOTES),
            figure: figure.min(MAX_NOTES),
        }
    }

    /// More room where `refusal` asks for it. No more than [`MAX_NOTES`] is of use: a bar and a
    /// figure's record each take a note.
    fn grown(self, refusal: &Refusal) -> Option<Self> {
        Some(match refusal {
            Refusal::NoteRecords { .. } => Self {
                notes: more(self.notes)?,
                ..self
            },
            Refusal::FigureRecords { .. } => Self {
                figure: more(self.figure)?,
                ..self
            },
            Refusal::BarRecords { .. } => Self {
                bars: more(self.bars)?,
                ..self
            },
            _ => return None,
        })
    }
}

fn count(text: &[u8], counted: impl Fn(u8) -> bool) -> usize {
    text.iter().filter(|byte| counted(**byte)).count()
}

fn more(records: usize) -> Option<usize> {
    (records < MAX_NOTES).then(|| (2 * records).clamp(8, MAX_NOTES))
}

fn read_growing(text: &[u8], mut room: Room) -> Result<Reading, Refusal> {
    loop {
        match read_within(text, room) {
            Err(refusal) => room = room.grown(&refusal).ok_or(refusal)?,
            reading => return reading,
        }
    }
}

fn read_within(text: &[u8], room: Room) -> Result<Reading, Refusal> {
    let buffers = Buffers {
        notes: &mut vec![[0; NOTE_WORDS]; room.notes],
        bars: &mut vec![[0; BAR_WORDS]; room.bars],
        figure: &mut vec![[0; NOTE_WORDS]; room.figure],
        diagnostics: &mut vec![DiagnosticCell::default(); DIAGNOSTIC_CELLS],
    };
    let records = read_into(text, buffers)?;
    Ok(Reading::from_records(&records, text)?)
}

#[cfg(test)]
mod tests {
    use super::*;
    use crate::words::NoteWords;

    const NONE: Room = Room {
        notes: 0,
        bars: 0,
        figure: 0,
    };

    /// The words of the notes, places included.
    fn words(reading: &Reading) -> Vec<NoteWords> {
        let words = reading.notes.iter().map(Note::to_words);
        words.collect::<Option<_>>().unwrap()
    }

    /// Notes, bars and the longest figure all beyond 8.
    const LONG: &str = "!CDEFGABCDEFG!f/C/C/C/C/C/C/C/C/C/i";

    #[test]
    fn too_little_room_grows() {
        let reading = read_growing(LONG.as_bytes(), NONE).unwrap();
        assert_eq!((reading.notes.len(), reading.bars.len()), (34, 11));
        let ample = read(LONG).unwrap();
        assert_eq!(words(&reading), words(&ample));
        assert_eq!(reading, ample);
    }

    #[test]
    fn rests_of_whole_bars_grow_notes_and_bars() {
        let reading = read("!C!=1000f").unwrap();
        assert_eq!((reading.notes.len(), reading.bars.len()), (1_002, 1_000));
    }

    #[test]
    fn each_refusal_grows_its_own_room() {
        let place = 1;
        for (refusal, grown) in [
            (Refusal::NoteRecords { place }, [8, 0, 0]),
            (Refusal::BarRecords { place }, [0, 8, 0]),
            (Refusal::FigureRecords { place }, [0, 0, 8]),
        ] {
            let room = NONE.grown(&refusal).unwrap();
            assert_eq!([room.notes, room.bars, room.figure], grown);
        }
        assert!(NONE.grown(&Refusal::NoNotes).is_none());
    }

    #[test]
    fn room_ends_at_the_note_limit() {
        assert_eq!(more(0), Some(8));
        assert_eq!(more(8), Some(16));
        assert_eq!(more(MAX_NOTES - 1), Some(MAX_NOTES));
        assert_eq!(more(MAX_NOTES), None);
    }
}
