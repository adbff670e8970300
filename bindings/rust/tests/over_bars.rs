//! Groups, beams and figures that are closed in another bar than the one they were opened in.

use urthmoli::words::{BAR_WORDS, DiagnosticCell, NOTE_WORDS};
use urthmoli::{
    Articulation, BeamState, Buffers, DIAGNOSTIC_CELLS, DiagnosticKind, Note, Position, read,
    read_into,
};

const GROUP: DiagnosticKind = DiagnosticKind::GroupOverBarline;
const FIGURE: DiagnosticKind = DiagnosticKind::FigureOverBarline;

fn each<T>(text: &str, part: impl Fn(&Note) -> T) -> Vec<T> {
    read(text).unwrap().notes.iter().map(part).collect()
}

/// What is diagnosed, with the places.
fn found(text: &str) -> Vec<(DiagnosticKind, u32)> {
    let diagnostics = read(text).unwrap().diagnostics;
    let place = |position: &Position| match position {
        Position::Data(place) => *place,
        other => panic!("{other} is no place of the data"),
    };
    let found = diagnostics.iter();
    found.map(|d| (d.kind, place(&d.position))).collect()
}

/// The steps of the notes, from C.
fn letters(text: &str) -> String {
    let letter = |note: &Note| note.pitches[0].to_string().remove(0);
    each(text, letter).into_iter().collect()
}

/// Whether no note has a beam, a tuplet or a mark.
fn is_plain(text: &str) -> bool {
    let plain = |note: &Note| {
        note.beam == BeamState::None && note.tuplet.is_none() && note.articulations.is_empty()
    };
    each(text, plain).into_iter().all(|plain| plain)
}

#[test]
fn a_group_closed_in_a_later_bar() {
    for (text, place) in [
        ("C(D/EFG)", 8),
        ("(C/D)", 5),
        ("(C/)", 4),
        ("(=2)", 4),
        ("C(D/;5)", 7),
        ("(C/D/EFG)", 9),
    ] {
        assert_eq!(found(text), [(GROUP, place)], "{text:?}");
        assert!(is_plain(text), "{text:?}");
    }
    let unmatched = DiagnosticKind::UnmatchedParen;
    assert_eq!(found("(C/D)E)"), [(GROUP, 5), (unmatched, 7)]);
}

#[test]
fn a_beam_closed_in_a_later_bar() {
    for text in ["{C/DE}", "{CD/EF}", "{C/D}", "{=2C}", "{CD/}"] {
        assert!(found(text).is_empty(), "{text:?}");
        assert!(is_plain(text), "{text:?}");
    }
}

#[test]
fn a_figure_closed_in_a_later_bar() {
    let none = DiagnosticKind::RepeatWithoutFigure;
    assert_eq!(found("!C/D!f"), [(FIGURE, 5), (none, 6)]);
    assert_eq!(found("!C/!"), [(FIGURE, 4)]);
    assert_eq!(found("!=2!"), [(FIGURE, 4)]);
    assert_eq!(found("!C!!D/E!f"), [(FIGURE, 8)]);
    assert_eq!(letters("!C!!D/E!f"), "CDEC");
}

#[test]
fn what_stays_in_its_bar() {
    let tuplets = each("(/CDE)", |note| note.tuplet.map(|t| t.actual_notes));
    assert_eq!(tuplets, [Some(3); 3]);
    let beams = each("C/{/DE}", |note| note.beam);
    assert_eq!(beams, [BeamState::None, BeamState::Begin, BeamState::End]);
    let marks = each("C/(=)", |note| note.articulations.to_vec());
    assert_eq!(marks, [vec![], vec![Articulation::Fermata]]);
    assert_eq!(letters("!/C!f"), "CC");
    for text in ["(/CDE)", "C/{/DE}", "C/(=)", "!/C!f"] {
        assert!(found(text).is_empty(), "{text:?}");
    }
}

#[test]
fn a_figure_lives_on_over_barlines() {
    assert_eq!(letters("!C!/f"), "CC");
    assert_eq!(letters("!CD!/E/f"), "CDECD");
    assert!(found("!C!/f").is_empty());
}

#[test]
fn no_room_is_needed_for_it() {
    let buffers = Buffers {
        notes: &mut [[7; NOTE_WORDS]; 2],
        bars: &mut [[7; BAR_WORDS]; 2],
        figure: &mut [],
        diagnostics: &mut vec![DiagnosticCell::default(); DIAGNOSTIC_CELLS],
    };
    let records = read_into(b"!C/D!", buffers).unwrap();
    assert_eq!((records.notes.len(), records.diagnostics.len()), (2, 1));
    let marked = "(C/Dtttttttt)";
    assert_eq!(found(marked), [(GROUP, 13)]);
    assert_eq!(each(marked, |note| note.articulations.len()), [0, 8]);
}

#[test]
fn as_lines() {
    let line = |text: &str| read(text).unwrap().diagnostics[0].to_string();
    assert_eq!(
        line("C(D/EFG)"),
        "pae.unsupported-tuplet at /data/8: a fermata or tuplet group opened in an earlier bar is \
         not imported (\"()\")"
    );
    assert_eq!(
        line("!C/D!"),
        "pae.unsupported-repeat at /data/5: a repeated figure opened in an earlier bar is not \
         imported (\"!\")"
    );
}
