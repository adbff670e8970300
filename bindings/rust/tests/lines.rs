//! The thirteen lines of which the reader's answers are proved, seen through the crate.

use urthmoli::{
    DiagnosticKind, Duration, Note, NoteKind, Position, Reading, Refusal, Step, TupletInfo, read,
};

fn each<T>(text: &str, part: impl Fn(&Note) -> T) -> Vec<T> {
    read(text).unwrap().notes.iter().map(part).collect()
}

fn alterations(text: &str) -> Vec<i8> {
    each(text, |note| note.pitches[0].alter)
}

fn only_diagnostic(reading: &Reading) -> (DiagnosticKind, Position) {
    assert_eq!(reading.diagnostics.len(), 1);
    let diagnostic = &reading.diagnostics[0];
    (diagnostic.kind, diagnostic.position.clone())
}

#[test]
fn accidentals_hold_for_step_octave_and_bar() {
    assert_eq!(alterations("xC''C'C/C"), [1, 0, 1, 0]);
    assert_eq!(alterations("x/C"), [1]);
    assert_eq!(alterations("$xF F nF F/F"), [1, 0, 0, 1]);
}

#[test]
fn patterns_step_past_graces() {
    let lengths = each("8.6 C D E", |note| (note.duration, note.dot_count));
    let dotted = (Some(Duration::Eighth), 1);
    assert_eq!(lengths, [dotted, (Some(Duration::Sixteenth), 0), dotted]);

    let lengths = each("86CqDE", |note| (note.kind, note.duration));
    let expected = [
        (NoteKind::Note, Some(Duration::Eighth)),
        (NoteKind::Grace, Some(Duration::Sixteenth)),
        (NoteKind::Note, Some(Duration::Sixteenth)),
    ];
    assert_eq!(lengths, expected);
}

#[test]
fn a_chord_needs_a_note_before_it() {
    let steps = each("4C^E-^G", |note| {
        let steps = note.pitches.iter().map(|pitch| pitch.step);
        steps.collect::<Vec<_>>()
    });
    assert_eq!(steps, [vec![Step::C, Step::E], vec![], vec![Step::G]]);
}

#[test]
fn copies_take_the_place_of_their_sign() {
    assert_eq!(each("!CD!f", |note| note.place), [2, 3, 5, 5]);
    assert_eq!(each("!CD!f", |note| note.pitch_places[0]), [2, 3, 2, 3]);
}

#[test]
fn a_key_behind_a_note_is_reported() {
    let reading = read("C$xFF").unwrap();
    assert_eq!(reading.notes.len(), 1);
    let expected = (DiagnosticKind::MidMeasureChange, Position::Data(2));
    assert_eq!(only_diagnostic(&reading), expected);
}

#[test]
fn octaves_end_at_nine() {
    let reading = read("''''''C").unwrap();
    assert_eq!(reading.notes[0].pitches[0].octave, 9);
    assert!(reading.diagnostics.is_empty());

    let reading = read("'''''''C").unwrap();
    assert_eq!(reading.notes[0].pitches[0].octave, 4);
    let expected = (DiagnosticKind::UnsupportedOctave, Position::Data(1));
    assert_eq!(only_diagnostic(&reading), expected);
}

#[test]
fn tuplets_have_three_notes_or_more() {
    let five = Some(TupletInfo {
        actual_notes: 5,
        normal_notes: 4,
    });
    assert_eq!(each("(CDEFG;5)", |note| note.tuplet), [five; 5]);

    let reading = read("(CD;2)").unwrap();
    assert!(reading.notes.iter().all(|note| note.tuplet.is_none()));
    let expected = (DiagnosticKind::SmallTuplet, Position::Data(6));
    assert_eq!(only_diagnostic(&reading), expected);
}

#[test]
fn a_refused_line() {
    assert_eq!(read("@c:C"), Err(Refusal::NoData));
}

#[test]
fn a_whole_bar_rest_stands_behind_a_note() {
    let kinds = each("C=", |note| (note.kind, note.place, note.bar));
    let expected = [(NoteKind::Note, 1, 1), (NoteKind::WholeBarRest, 2, 1)];
    assert_eq!(kinds, expected);
}
