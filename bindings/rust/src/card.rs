//! Catalogue cards: notes and bars as bytes, to be stored and read back.

use crate::bar::Bar;
use crate::buffers::{Records, first};
use crate::card_error::CardError;
use crate::ffi;
use crate::limits::MAX_NOTES;
use crate::note::Note;
use crate::owned::Reading;
use crate::words::{BAR_WORDS, BarWords, NOTE_WORDS, NoteWords};

/// The bytes before the first bar.
const FRONT_BYTES: usize = 5;

/// The most bytes of a bar, without its notes.
const MAX_BAR_BYTES: usize = 12;

/// The most bytes of a note.
const MAX_NOTE_BYTES: usize = 43;

/// The fewest bytes of a bar, without its notes.
const MIN_BAR_BYTES: usize = 5;

/// The fewest bytes of a note, those of a rest.
const MIN_NOTE_BYTES: usize = 5;

/// The most bytes of a card with so many notes and bars.
#[must_use]
pub const fn max_card_bytes(notes: usize, bars: usize) -> usize {
    let bars = bars.saturating_mul(MAX_BAR_BYTES);
    let notes = notes.saturating_mul(MAX_NOTE_BYTES);
    FRONT_BYTES.saturating_add(bars).saturating_add(notes)
}

/// Writes the card of all these notes and bars into your buffer `card`, allocates nothing and hands
/// back the bytes of the card. Every byte after them is 0 afterwards; after a refusal all are.
/// [`max_card_bytes`] are enough.
///
/// ```
/// use urthmoli::words::{BAR_WORDS, NOTE_WORDS, bar, note};
/// use urthmoli::{NoteKind, max_card_bytes, write_card_into};
///
/// let mut rest = [0; NOTE_WORDS];
/// rest[note::PLACE] = 3;
/// rest[note::KIND] = NoteKind::Rest.word();
/// rest[note::BAR] = 1;
/// let mut first = [0; BAR_WORDS];
/// first[bar::NOTE_COUNT] = 1;
///
/// let mut bytes = [0; max_card_bytes(1, 1)];
/// let card = write_card_into(&[rest], &[first], &mut bytes)?;
/// assert_eq!(card, [1, 1, 0, 0, 0, 0, 1, 0, 0, 0, 1, 3, 0, 0, 1]);
/// # Ok::<(), urthmoli::CardError>(())
/// ```
///
/// # Errors
///
/// [`CardError::NotRecords`] where no card holds these, else [`CardError::CardRoom`] where theirs
/// doesn't fit.
pub fn write_card_into<'a>(
    notes: &[NoteWords],
    bars: &[BarWords],
    card: &'a mut [u8],
) -> Result<&'a [u8], CardError> {
    let answer = ffi::write_card(notes.as_flattened(), bars.as_flattened(), card);
    match answer.number {
        0 => Ok(first(card, answer.length)),
        number => Err(CardError::of_writer(number)),
    }
}

/// Reads a card into your buffers and allocates nothing. The card has no diagnostics. Every cell
/// of the buffers that isn't handed back is 0 afterwards; after a refusal all are.
///
/// ```
/// use urthmoli::words::{BAR_WORDS, NOTE_WORDS, note};
/// use urthmoli::{NoteKind, read_card_into};
///
/// let card = [1, 1, 0, 0, 0, 0, 1, 0, 0, 0, 1, 3, 0, 0, 1];
/// let mut notes = [[0; NOTE_WORDS]; 16];
/// let mut bars = [[0; BAR_WORDS]; 4];
/// let records = read_card_into(&card, &mut notes, &mut bars)?;
/// assert_eq!((records.notes.len(), records.bars.len()), (1, 1));
/// assert_eq!(records.notes[0][note::KIND], NoteKind::Rest.word());
/// # Ok::<(), urthmoli::CardError>(())
/// ```
///
/// # Errors
///
/// [`CardError::NotACard`] where the bytes are none, else [`CardError::RecordRoom`] where what they
/// hold doesn't fit.
pub fn read_card_into<'a>(
    card: &[u8],
    notes: &'a mut [NoteWords],
    bars: &'a mut [BarWords],
) -> Result<Records<'a>, CardError> {
    let answer = ffi::read_card(card, notes.as_flattened_mut(), bars.as_flattened_mut());
    match answer.number {
        0 => Ok(Records {
            notes: first(notes, answer.notes),
            bars: first(bars, answer.bars),
            diagnostics: &[],
        }),
        number => Err(CardError::of_reader(number)),
    }
}

impl Reading {
    /// The card of the notes and bars: [`from_card`](Self::from_card) makes them again from it. The
    /// diagnostics are no part of it.
    ///
    /// What a text or a card reads to always has one.
    ///
    /// # Errors
    ///
    /// [`CardError::NotRecords`]: a reading put together or changed by hand may hold what no card
    /// does, as a place of 0 or a bar without notes.
    pub fn to_card(&self) -> Result<Vec<u8>, CardError> {
        let notes = all(&self.notes, Note::to_words)?;
        let bars = all(&self.bars, Bar::to_words)?;
        let mut bytes = vec![0; max_card_bytes(notes.len(), bars.len())];
        Ok(write_card_into(&notes, &bars, &mut bytes)?.to_vec())
    }

    /// The notes and bars whose card it is, places included; the diagnostics are empty, as no card
    /// has any. Any bytes may be given. It never panics, and never refuses for want of room.
    ///
    /// # Errors
    ///
    /// [`CardError::NotACard`] where the bytes are no card.
    pub fn from_card(card: impl AsRef<[u8]>) -> Result<Self, CardError> {
        let card = card.as_ref();
        let mut notes = vec![[0; NOTE_WORDS]; most_notes(card)];
        let mut bars = vec![[0; BAR_WORDS]; most_bars(card)];
        let records = read_card_into(card, &mut notes, &mut bars)?;
        Ok(Self::from_records(&records, &[])?)
    }
}

/// The records of all `values`.
fn all<T, R>(values: &[T], record: impl Fn(&T) -> Option<R>) -> Result<Vec<R>, CardError> {
    let records: Option<_> = values.iter().map(record).collect();
    records.ok_or(CardError::NotRecords)
}

/// No card of this length has more notes.
fn most_notes(card: &[u8]) -> usize {
    (card.len() / MIN_NOTE_BYTES).min(MAX_NOTES)
}

/// No card of this length has more bars; each has a note.
fn most_bars(card: &[u8]) -> usize {
    (card.len() / (MIN_BAR_BYTES + MIN_NOTE_BYTES)).min(MAX_NOTES)
}
