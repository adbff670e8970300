//! Reading into your buffers, without allocation.

use crate::ffi;
use crate::refusal::Refusal;
use crate::words::{BarWords, DiagnosticCell, NoteWords};

/// Your buffers for a reading. What they held before doesn't matter; any may be empty but the
/// diagnostics, of which [`DIAGNOSTIC_CELLS`](crate::DIAGNOSTIC_CELLS) are needed.
#[derive(Debug)]
pub struct Buffers<'a> {
    /// A record for each note.
    pub notes: &'a mut [NoteWords],
    /// A record for each bar.
    pub bars: &'a mut [BarWords],
    /// A record for each note of the longest figure (`!…!`).
    pub figure: &'a mut [NoteWords],
    /// The diagnostics.
    pub diagnostics: &'a mut [DiagnosticCell],
}

/// The records of a text or a card, in your buffers. They are words, so that places count where two
/// are compared.
#[derive(Clone, Copy, Debug, PartialEq, Eq, Hash)]
pub struct Records<'a> {
    /// The stored notes; see [`words::note`](crate::words::note) and
    /// [`Note::from_words`](crate::Note::from_words), which doesn't allocate either.
    pub notes: &'a [NoteWords],
    /// The stored bars; see [`words::bar`](crate::words::bar) and
    /// [`Bar::from_words`](crate::Bar::from_words).
    pub bars: &'a [BarWords],
    /// The stored diagnostics; none of a card.
    pub diagnostics: &'a [DiagnosticCell],
}

/// Reads `text`, in UTF-8, into your buffers and allocates nothing. Every cell of them that isn't
/// handed back is 0 afterwards; after a refusal all are.
///
/// ```
/// use urthmoli::words::{BAR_WORDS, DiagnosticCell, NOTE_WORDS, note};
/// use urthmoli::{Buffers, DIAGNOSTIC_CELLS, NoteKind, read_into};
///
/// let buffers = Buffers {
///     notes: &mut [[0; NOTE_WORDS]; 16],
///     bars: &mut [[0; BAR_WORDS]; 4],
///     figure: &mut [],
///     diagnostics: &mut [DiagnosticCell::default(); DIAGNOSTIC_CELLS],
/// };
/// let records = read_into(b"4C-D", buffers)?;
/// assert_eq!(records.notes.len(), 3);
/// assert_eq!(records.notes[1][note::KIND], NoteKind::Rest.word());
/// # Ok::<(), urthmoli::Refusal>(())
/// ```
///
/// # Errors
///
/// The [`Refusal`] of what can't be read or doesn't fit the buffers, with its place.
pub fn read_into<'a>(text: &[u8], buffers: Buffers<'a>) -> Result<Records<'a>, Refusal> {
    let Buffers {
        notes,
        bars,
        figure,
        diagnostics,
    } = buffers;
    let answer = ffi::read(
        text,
        notes.as_flattened_mut(),
        bars.as_flattened_mut(),
        figure.as_flattened_mut(),
        diagnostics,
    );
    if answer.number != 0 {
        return Err(Refusal::from_answer(&answer, text, diagnostics.len()));
    }
    Ok(Records {
        notes: first(notes, answer.notes),
        bars: first(bars, answer.bars),
        diagnostics: first(diagnostics, answer.diagnostics),
    })
}

/// The first `count` of `records`; the library counts no more than there are.
pub(crate) fn first<T>(records: &[T], count: u32) -> &[T] {
    let count = usize::try_from(count).unwrap_or(usize::MAX);
    &records[..count.min(records.len())]
}
