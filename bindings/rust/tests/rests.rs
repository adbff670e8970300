//! Rests of whole bars.

use urthmoli::words::{BAR_WORDS, DiagnosticCell, NOTE_WORDS, note};
use urthmoli::{
    Articulation, BeamState, Buffers, DIAGNOSTIC_CELLS, Diagnostic, DiagnosticKind, Duration,
    MAX_WHOLE_BARS, Note, NoteKind, Position, Refusal, Ties, read, read_into,
};

fn each<T>(text: &str, part: impl Fn(&Note) -> T) -> Vec<T> {
    read(text).unwrap().notes.iter().map(part).collect()
}

fn kinds(text: &str) -> Vec<NoteKind> {
    each(text, |note| note.kind)
}

fn alterations(text: &str) -> Vec<i8> {
    let notes = read(text).unwrap().notes;
    notes
        .iter()
        .flat_map(|note| {
            note.pitches
                .iter()
                .map(|pitch| pitch.alter)
                .collect::<Vec<_>>()
        })
        .collect()
}

/// The note counts of the bars.
fn bars(text: &str) -> Vec<usize> {
    let bars = read(text).unwrap().bars;
    bars.iter().map(|bar| bar.note_count).collect()
}

#[test]
fn a_part_opens_with_twelve_bars() {
    let reading = read("%F-4@c =12/'4C").unwrap();
    assert_eq!((reading.notes.len(), reading.bars.len()), (13, 13));
    for (rest, bar) in reading.notes[..12].iter().zip(1..) {
        assert_eq!(rest.kind, NoteKind::WholeBarRest);
        assert_eq!((rest.duration, rest.dot_count), (None, 0));
        assert_eq!((rest.place, rest.bar), (8, bar));
        assert!(rest.pitches.is_empty());
    }
    let note = reading.notes[12];
    let quarter = Some(Duration::Quarter);
    assert_eq!((note.kind, note.duration), (NoteKind::Note, quarter));
    assert!(reading.diagnostics.is_empty());
}

#[test]
fn counts_and_bars() {
    assert_eq!(bars("="), [1]);
    assert_eq!(bars("=02"), [1, 1]);
    assert_eq!(bars("C=2D"), [2, 2]);
    assert_eq!(bars("C/=/D"), [1, 1, 1]);
    assert_eq!(bars("= 2C"), [2]);
    assert_eq!(bars(&format!("={MAX_WHOLE_BARS}")).len(), MAX_WHOLE_BARS);
}

#[test]
fn bad_counts() {
    let over = format!("{}", MAX_WHOLE_BARS + 1);
    for digits in ["0", "00", &over, "99999999999999999999"] {
        let reading = read(format!("é={digits}C")).unwrap();
        assert_eq!(reading.notes.len(), 1);
        let expected = Diagnostic {
            kind: DiagnosticKind::WholeBarCount,
            position: Position::Data(2),
            value: digits.to_string(),
            span: Some(3..3 + digits.len()),
        };
        assert_eq!(reading.diagnostics[1], expected);
    }
    assert_eq!(read("=0"), Err(Refusal::NoNotes));
    let reading = read("C=1001").unwrap();
    assert_eq!(
        reading.diagnostics[0].to_string(),
        "pae.unsupported-measure-rest at /data/2: multi-measure rest count is out of range (\"1001\")"
    );
}

#[test]
fn what_it_leaves_alone() {
    assert_eq!(each("C+=2D", |note| note.ties)[3], Ties::End);
    let lengths = each("86C=2DE", |note| note.duration);
    let (eighth, sixteenth) = (Some(Duration::Eighth), Some(Duration::Sixteenth));
    assert_eq!(lengths, [eighth, None, None, sixteenth, eighth]);
    assert_eq!(alterations("xC=C"), [1, 1]);
    assert_eq!(alterations("xC=2C"), [1, 0]);
    assert_eq!(alterations("x=2C"), [1]);
}

#[test]
fn a_rest_for_chords_groups_and_copies() {
    let (note, whole) = (NoteKind::Note, NoteKind::WholeBarRest);
    assert_eq!(kinds("C^=D"), [note, whole, note]);
    assert_eq!(kinds("=/i"), [whole, whole]);
    assert_eq!(kinds("!C=!f"), [note, whole, note, whole]);
    let marks = each("(=)t", |note| note.articulations.to_vec());
    assert_eq!(marks, [[Articulation::Fermata, Articulation::Trill]]);
    let beams = each("{C=}", |note| note.beam);
    assert_eq!(beams, [BeamState::Begin, BeamState::End]);
    let found = read("=+").unwrap().diagnostics;
    assert_eq!(found[0].kind, DiagnosticKind::TieWithoutNote);
}

#[test]
fn rests_of_both_kinds() {
    assert_eq!(kinds("-="), [NoteKind::Rest, NoteKind::WholeBarRest]);
    let rests = [NoteKind::Rest, NoteKind::WholeBarRest];
    assert!(rests.iter().all(|kind| kind.is_rest()));
    let others = [NoteKind::Note, NoteKind::Grace, NoteKind::SlashedGrace];
    assert!(!others.iter().any(|kind| kind.is_rest()));
}

#[test]
fn as_words() {
    let buffers = Buffers {
        notes: &mut [[7; NOTE_WORDS]; 2],
        bars: &mut [[7; BAR_WORDS]; 2],
        figure: &mut [],
        diagnostics: &mut vec![DiagnosticCell::default(); DIAGNOSTIC_CELLS],
    };
    let records = read_into(b"=2", buffers).unwrap();
    for (words, bar) in records.notes.iter().zip(1..) {
        let mut expected = [0; NOTE_WORDS];
        expected[note::PLACE] = 1;
        expected[note::KIND] = NoteKind::WholeBarRest.word();
        expected[note::BAR] = bar;
        assert_eq!(words, &expected);
    }
}
