//! Notes and lengths as they are displayed, and pitches as MIDI numbers.

use urthmoli::words::NOTE_WORDS;
use urthmoli::{Duration, Note, NoteKind, Pitch, Step, read};

fn shown(text: &str) -> Vec<String> {
    let notes = read(text).unwrap().notes;
    notes.iter().map(ToString::to_string).collect()
}

#[test]
fn durations() {
    let words = (0..).map_while(|word| Duration::from_word(word).ok());
    let names: Vec<_> = words.map(|duration| duration.to_string()).collect();
    let expected = [
        "longa", "breve", "whole", "half", "quarter", "eighth", "16th", "32nd", "64th", "128th",
    ];
    assert_eq!(names, expected);
    assert_eq!(format!("[{:>7}]", Duration::Half), "[   half]");
}

#[test]
fn notes_and_chords() {
    assert_eq!(shown("C"), ["C4 quarter"]);
    assert_eq!(shown("4.xC^E"), ["C#4 E4 quarter."]);
    assert_eq!(shown("7...''bbB"), ["Bbb5 128th..."]);
    assert_eq!(shown("{8C+C}t(D)"), ["C4 eighth", "C4 eighth", "D4 eighth"]);
    let note = read("0,,A").unwrap().notes[0];
    assert_eq!(
        format!("[{note:<9}] [{note:>9}]"),
        "[A2 longa ] [ A2 longa]"
    );
}

#[test]
fn rests() {
    assert_eq!(shown("2.-"), ["rest half."]);
    assert_eq!(shown("1C=-"), ["C4 whole", "whole-bar rest", "rest whole"]);
}

#[test]
fn graces() {
    let expected = ["grace D5 16th", "slashed grace Eb5 eighth", "C5 eighth."];
    assert_eq!(shown("8.6''CqDgbE8.C")[1..], expected);
}

/// A card's whole-bar rest may have a length; a note changed by hand may have none.
#[test]
fn odd_ones() {
    let mut rest = Note::from_words(&[0; NOTE_WORDS]).unwrap();
    rest.kind = NoteKind::WholeBarRest;
    rest.duration = Some(Duration::Quarter);
    assert_eq!(rest.to_string(), "whole-bar rest quarter");
    let mut note = read("4.C").unwrap().notes[0];
    note.duration = None;
    assert_eq!(note.to_string(), "C4");
}

const STEPS: [(Step, u8); 7] = [
    (Step::C, 0),
    (Step::D, 2),
    (Step::E, 4),
    (Step::F, 5),
    (Step::G, 7),
    (Step::A, 9),
    (Step::B, 11),
];

/// acorde's own computation, which goes by way of `f32`; a pitch here has no cents.
#[expect(clippy::cast_possible_truncation, reason = "as acorde computes it")]
fn as_acorde(octave: i8, semitone: u8, alter: i8) -> i16 {
    let base = (i16::from(octave) + 1) * 12;
    (f32::from(base) + f32::from(semitone) + f32::from(alter)).round() as i16
}

#[test]
fn midi_numbers_are_acordes() {
    for (step, semitone) in STEPS {
        for octave in i8::MIN..=i8::MAX {
            for alter in [i8::MIN, -3, -2, -1, 0, 1, 2, 3, i8::MAX] {
                let pitch = Pitch {
                    step,
                    octave,
                    alter,
                };
                assert_eq!(
                    pitch.to_midi(),
                    as_acorde(octave, semitone, alter),
                    "{pitch}"
                );
            }
        }
    }
}

#[test]
fn midi_numbers_by_name() {
    let notes = read("'C/xC/bD/nC,B/xB'bC/''A,,,C''''''B'''''bbC")
        .unwrap()
        .notes;
    let numbers: Vec<_> = notes
        .iter()
        .map(|note| (note.pitches[0].to_string(), note.pitches[0].to_midi()))
        .collect();
    let expected = [
        ("C4", 60),
        ("C#4", 61),
        ("Db4", 61),
        ("C4", 60),
        ("B3", 59),
        ("B#3", 60),
        ("Cb4", 59),
        ("A5", 81),
        ("C1", 24),
        ("B9", 131),
        ("Cbb8", 106),
    ];
    assert_eq!(
        numbers,
        expected.map(|(name, midi)| (name.to_string(), midi))
    );
}
