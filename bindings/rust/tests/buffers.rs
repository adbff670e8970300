//! Reading into buffers, whatever they held before.

mod exact;

use exact::words_of;
use urthmoli::words::{BAR_WORDS, BarWords, DiagnosticCell, NOTE_WORDS, NoteWords, bar, note};
use urthmoli::{Bar, Buffers, DIAGNOSTIC_CELLS, Diagnostic, Note, Refusal, read, read_into};

const POISON: i32 = -1_515_870_811;

const POISONED_CELL: DiagnosticCell = DiagnosticCell {
    number: POISON,
    place_kind: POISON,
    place: POISON,
    value_kind: POISON,
    start: POISON,
    end: POISON,
};

/// Owned buffers, poisoned.
struct Poisoned {
    notes: Vec<NoteWords>,
    bars: Vec<BarWords>,
    figure: Vec<NoteWords>,
    diagnostics: Vec<DiagnosticCell>,
}

impl Poisoned {
    fn new(notes: usize, bars: usize, figure: usize, cells: usize) -> Self {
        Self {
            notes: vec![[POISON; NOTE_WORDS]; notes],
            bars: vec![[POISON; BAR_WORDS]; bars],
            figure: vec![[POISON; NOTE_WORDS]; figure],
            diagnostics: vec![POISONED_CELL; cells],
        }
    }

    fn all(&mut self) -> Buffers<'_> {
        Buffers {
            notes: &mut self.notes,
            bars: &mut self.bars,
            figure: &mut self.figure,
            diagnostics: &mut self.diagnostics,
        }
    }

    /// Whether every cell is 0 behind the first so many notes, bars and diagnostics.
    fn clear_behind(&self, notes: usize, bars: usize, diagnostics: usize) -> bool {
        let empty = DiagnosticCell::default();
        self.notes[notes..].iter().flatten().all(|word| *word == 0)
            && self.bars[bars..].iter().flatten().all(|word| *word == 0)
            && self.figure.iter().flatten().all(|word| *word == 0)
            && self.diagnostics[diagnostics..]
                .iter()
                .all(|cell| *cell == empty)
    }
}

#[test]
fn accepted_texts_leave_the_rest_clear() {
    let text = b"%F-4!C^ED!f/G)";
    let mut buffers = Poisoned::new(9, 4, 3, DIAGNOSTIC_CELLS + 5);
    let records = read_into(text, buffers.all()).unwrap();
    assert_eq!(records.notes[4][note::BAR], 2);
    assert_eq!(records.bars[1][bar::FIRST_NOTE], 4);

    let reading = read(text).unwrap();
    assert_eq!(words_of(&reading.notes), records.notes);
    let notes: Result<Vec<_>, _> = records.notes.iter().map(Note::from_words).collect();
    assert_eq!(notes.as_deref().map(words_of), Ok(words_of(&reading.notes)));
    let bars: Result<Vec<_>, _> = records.bars.iter().map(Bar::from_words).collect();
    assert_eq!(bars, Ok(reading.bars));
    assert_eq!(records.diagnostics.len(), 1);
    assert_eq!(records.diagnostics[0].part(text), Some(&b")"[..]));
    let diagnostic = Diagnostic::from_cell(&records.diagnostics[0], text);
    assert_eq!(diagnostic.as_ref(), Ok(&reading.diagnostics[0]));
    assert!(buffers.clear_behind(5, 2, 1));
}

#[test]
fn refused_texts_leave_all_clear() {
    let long = " ".repeat(urthmoli::MAX_TEXT_BYTES + 1);
    let texts = [
        "", "é", "\u{a0}", "@c:C", "=3", "CDEFG", "!CDE!", "C/D/E", "Ct)x=4", "x",
    ];
    let texts = texts.into_iter().chain([long.as_str()]);
    for text in texts.map(str::as_bytes).chain([&b"C)/D\xc3"[..]]) {
        let mut buffers = Poisoned::new(4, 2, 2, DIAGNOSTIC_CELLS);
        assert!(read_into(text, buffers.all()).is_err());
        assert!(buffers.clear_behind(0, 0, 0), "{}", text.escape_ascii());
    }
}

#[test]
fn too_few_cells_are_cleared_too() {
    for cells in [0, 1, DIAGNOSTIC_CELLS - 1] {
        let mut buffers = Poisoned::new(4, 2, 2, cells);
        let refusal = read_into(b"C", buffers.all()).unwrap_err();
        assert_eq!(refusal, Refusal::DiagnosticCells { cells });
        assert!(buffers.clear_behind(0, 0, 0));
    }
}

#[test]
fn empty_buffers() {
    let mut buffers = Poisoned::new(0, 0, 0, DIAGNOSTIC_CELLS);
    let refusal = read_into(b"C", buffers.all()).unwrap_err();
    assert_eq!(refusal, Refusal::NoteRecords { place: 1 });
    assert_eq!(read_into(b"", buffers.all()), Err(Refusal::Blank));

    let mut buffers = Poisoned::new(1, 0, 0, DIAGNOSTIC_CELLS);
    let refusal = read_into(b"C", buffers.all()).unwrap_err();
    assert_eq!(refusal, Refusal::BarRecords { place: 2 });

    let mut buffers = Poisoned::new(1, 1, 0, DIAGNOSTIC_CELLS);
    let refusal = read_into(b"!C!", buffers.all()).unwrap_err();
    assert_eq!(refusal, Refusal::FigureRecords { place: 3 });
    assert_eq!(read_into(b"C", buffers.all()).unwrap().notes.len(), 1);
}

#[test]
fn unknown_words_are_no_notes() {
    let mut words = [0; NOTE_WORDS];
    words[note::KIND] = 1_000;
    let unknown = Note::from_words(&words).unwrap_err();
    assert_eq!((unknown.what, unknown.word), ("kind of note", 1_000));
    words[note::KIND] = 0;
    words[note::PITCH_COUNT] = i32::MAX;
    assert!(Note::from_words(&words).is_err());
    words[note::PITCH_COUNT] = -1;
    assert!(Note::from_words(&words).is_err());
    assert!(Bar::from_words(&[-1; BAR_WORDS]).is_err());
    assert!(Diagnostic::from_cell(&POISONED_CELL, b"C").is_err());
}
