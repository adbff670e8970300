//! Notes and rests, named as in acorde.

use crate::duration::Duration;
use crate::limits::{MAX_MARKS, MAX_PITCHES};
use crate::list::List;
use crate::pitch::Pitch;
use crate::word::{UnknownWord, count, number, unless_zero, word, words_enum};
use crate::words::{NOTE_WORDS, NoteWords, PITCH_WORDS, note, pitch};
use std::fmt;
use std::hash::{Hash, Hasher};
use std::iter;

words_enum! {
    /// What a note record is.
    #[non_exhaustive]
    NoteKind, "kind of note" {
        /// A note with its own time.
        Note = 0,
        /// A rest.
        Rest = 1,
        /// A grace note (`q`, or in a group `qq` to `r`).
        Grace = 2,
        /// A slashed grace note (`g`).
        SlashedGrace = 3,
        /// A rest of a whole bar (`=`), whatever the bar's length.
        WholeBarRest = 4,
    }
}

impl NoteKind {
    /// Whether it is a rest, of a written length or of a whole bar.
    #[must_use]
    pub fn is_rest(self) -> bool {
        matches!(self, Self::Rest | Self::WholeBarRest)
    }

    /// Whether it is a grace note, slashed or not.
    #[must_use]
    pub fn is_grace(self) -> bool {
        matches!(self, Self::Grace | Self::SlashedGrace)
    }

    /// What stands before the pitches where a note is displayed.
    fn name(self) -> Option<&'static str> {
        match self {
            Self::Note => None,
            Self::Rest => Some("rest"),
            Self::Grace => Some("grace"),
            Self::SlashedGrace => Some("slashed grace"),
            Self::WholeBarRest => Some("whole-bar rest"),
        }
    }
}

words_enum! {
    /// The ties at a note.
    Ties, "tie" {
        /// None.
        None = 0,
        /// One starts here.
        Start = 1,
        /// One ends here.
        End = 2,
        /// One ends here and another starts.
        Both = 3,
    }
}

words_enum! {
    /// A note's part in a beam. A beam closed in a later bar than it was opened in is none; no
    /// diagnostic says so.
    BeamState, "beam" {
        /// None.
        None = 0,
        /// The beam's first note.
        Begin = 1,
        /// A note between the first and the last.
        Continue = 2,
        /// The beam's last note.
        End = 3,
    }
}

words_enum! {
    /// A mark on a note.
    Articulation, "mark" {
        /// A fermata.
        Fermata = 0,
        /// A trill.
        Trill = 1,
    }
}

/// A tuplet's ratio.
#[derive(Clone, Copy, Debug, PartialEq, Eq, Hash)]
pub struct TupletInfo {
    /// The notes of the group, 3 for a triplet.
    pub actual_notes: u8,
    /// The notes in whose time they are played, 2 for a triplet.
    pub normal_notes: u8,
}

/// A note, chord, grace note or rest.
///
/// Two notes are equal, and hash alike, where all is equal but where they stand: `place`,
/// `pitch_places` and `bar` don't matter, as acorde's notes have none of these. Where they do
/// matter, compare the [words](Self::to_words):
///
/// ```
/// let (tight, wide) = (urthmoli::read("CDE")?, urthmoli::read("C D/E")?);
/// assert_eq!(tight.notes, wide.notes);
/// assert_ne!(tight.notes[2].to_words(), wide.notes[2].to_words());
/// # Ok::<(), urthmoli::Refusal>(())
/// ```
///
/// A note is displayed as its pitches and its length with the dots. A rest and a grace note have
/// their names in front; ties, beam, tuplet and marks aren't shown:
///
/// ```
/// let notes = urthmoli::read("4.xC^E8-g''D=")?.notes;
/// let lines: Vec<String> = notes.iter().map(ToString::to_string).collect();
/// let expected = ["C#4 E4 quarter.", "rest eighth", "slashed grace D5 eighth", "whole-bar rest"];
/// assert_eq!(lines, expected);
/// # Ok::<(), urthmoli::Refusal>(())
/// ```
#[derive(Clone, Copy, Debug)]
pub struct Note {
    /// The place in the data of the token that stored it, in characters from 1: a letter, `-`,
    /// `=`, `f` or `i`.
    pub place: u32,
    /// What it is.
    pub kind: NoteKind,
    /// Its written length. Of a text it is none exactly for a whole-bar rest; a card may give one
    /// to such a rest too.
    pub duration: Option<Duration>,
    /// Its dots, 0 to 3.
    pub dot_count: u8,
    /// Its ties.
    pub ties: Ties,
    /// Its part in a beam.
    pub beam: BeamState,
    /// Its tuplet.
    pub tuplet: Option<TupletInfo>,
    /// Its marks, in order of arrival.
    pub articulations: List<Articulation, MAX_MARKS>,
    /// Its pitches, in the order of the letters; none for a rest.
    pub pitches: List<Pitch, MAX_PITCHES>,
    /// The place of each pitch's letter in the data, in characters from 1, in the order of
    /// `pitches`. In a copy by `f` or `i` they are those of the letters that were copied.
    pub pitch_places: List<u32, MAX_PITCHES>,
    /// The number of its bar, from 1.
    pub bar: u32,
}

impl Note {
    /// What a note record stands for.
    ///
    /// # Errors
    ///
    /// A word to which this crate gives no meaning.
    pub fn from_words(words: &NoteWords) -> Result<Self, UnknownWord> {
        let kind = NoteKind::from_word(words[note::KIND])?;
        let pitches = pitch_cells(words)?;
        Ok(Self {
            place: number("place", words[note::PLACE])?,
            kind,
            duration: duration(kind, words[note::DURATION])?,
            dot_count: number("number of dots", words[note::DOTS])?,
            ties: Ties::from_word(words[note::TIES])?,
            beam: BeamState::from_word(words[note::BEAM])?,
            tuplet: tuplet(words)?,
            articulations: articulations(words)?,
            pitches: List::collect(Pitch::UNUSED, pitches.iter().map(Pitch::from_words))?,
            pitch_places: List::collect(0, pitches.iter().map(pitch_place))?,
            bar: number("bar number", words[note::BAR])?,
        })
    }

    /// The record that stands for it, of which [`from_words`](Self::from_words) makes it again,
    /// places and bar included. None where no record does: a note without a duration that is no
    /// whole-bar rest, a tuplet of 0, more or fewer places than pitches.
    #[must_use]
    pub fn to_words(&self) -> Option<NoteWords> {
        let words = self.words();
        let again = Self::from_words(&words).ok()?;
        (again.parts() == self.parts()).then_some(words)
    }

    fn words(&self) -> NoteWords {
        let mut words = [0; NOTE_WORDS];
        words[note::PLACE] = word(self.place);
        words[note::KIND] = self.kind.word();
        words[note::DURATION] = self.duration.map_or(0, Duration::word);
        words[note::DOTS] = word(self.dot_count);
        words[note::TIES] = self.ties.word();
        words[note::BEAM] = self.beam.word();
        if let Some(tuplet) = self.tuplet {
            words[note::TUPLET_ACTUAL] = word(tuplet.actual_notes);
            words[note::TUPLET_NORMAL] = word(tuplet.normal_notes);
        }
        words[note::MARK_COUNT] = word(self.articulations.len());
        words[note::MARKS] = mark_bits(&self.articulations);
        words[note::PITCH_COUNT] = word(self.pitches.len());
        words[note::BAR] = word(self.bar);
        let (cells, _) = words[note::PITCHES..].as_chunks_mut();
        let pitches = iter::zip(&self.pitches, &self.pitch_places);
        for (cell, (pitch, place)) in cells.iter_mut().zip(pitches) {
            *cell = pitch.words(*place);
        }
        words
    }

    /// What it is, and where it stands. Every field is in one of them.
    fn parts(&self) -> (impl Eq + Hash, impl Eq) {
        let Self {
            place,
            kind,
            duration,
            dot_count,
            ties,
            beam,
            tuplet,
            articulations,
            pitches,
            pitch_places,
            bar,
        } = self;
        let length = (duration, dot_count, tuplet);
        let what = (kind, length, ties, beam, articulations, pitches);
        (what, (place, pitch_places, bar))
    }
}

impl PartialEq for Note {
    fn eq(&self, other: &Self) -> bool {
        self.parts().0 == other.parts().0
    }
}

impl Eq for Note {}

impl Hash for Note {
    fn hash<H: Hasher>(&self, state: &mut H) {
        self.parts().0.hash(state);
    }
}

impl fmt::Display for Note {
    fn fmt(&self, f: &mut fmt::Formatter<'_>) -> fmt::Result {
        let dots = ".".repeat(self.dot_count.into());
        let name = self.kind.name().map(str::to_string);
        let pitches = self.pitches.iter().map(ToString::to_string);
        let length = self.duration.map(|duration| format!("{duration}{dots}"));
        let shown: Vec<String> = name.into_iter().chain(pitches).chain(length).collect();
        f.pad(&shown.join(" "))
    }
}

fn duration(kind: NoteKind, word: i32) -> Result<Option<Duration>, UnknownWord> {
    match kind {
        NoteKind::WholeBarRest => unless_zero(word, Duration::from_word),
        _ => Duration::from_word(word).map(Some),
    }
}

fn tuplet(words: &NoteWords) -> Result<Option<TupletInfo>, UnknownWord> {
    unless_zero(words[note::TUPLET_ACTUAL], |actual| {
        Ok(TupletInfo {
            actual_notes: number("tuplet", actual)?,
            normal_notes: number("tuplet", words[note::TUPLET_NORMAL])?,
        })
    })
}

fn articulations(words: &NoteWords) -> Result<List<Articulation, MAX_MARKS>, UnknownWord> {
    let count = count("number of marks", words[note::MARK_COUNT], MAX_MARKS)?;
    let marks = (0..count).map(|mark| Articulation::from_word(words[note::MARKS] >> mark & 1));
    List::collect(Articulation::Fermata, marks)
}

/// The marks as bits, the first one lowest.
fn mark_bits(marks: &[Articulation]) -> i32 {
    let last_first = marks.iter().rev();
    last_first.fold(0, |bits, mark| 2 * bits + mark.word())
}

/// The words of its pitches.
fn pitch_cells(words: &NoteWords) -> Result<&[[i32; PITCH_WORDS]], UnknownWord> {
    let count = count("number of pitches", words[note::PITCH_COUNT], MAX_PITCHES)?;
    let (cells, _) = words[note::PITCHES..].as_chunks();
    Ok(&cells[..count])
}

fn pitch_place(cell: &[i32; PITCH_WORDS]) -> Result<u32, UnknownWord> {
    number("place", cell[pitch::PLACE])
}
