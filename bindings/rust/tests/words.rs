//! What the words of notes and bars come to.

use urthmoli::{
    Articulation, Bar, Barline, BeamState, Clef, Duration, KeySignature, Ties, TimeSignature,
    TimeSymbol, read,
};

fn first_bar(text: &str) -> Bar {
    read(text).unwrap().bars[0]
}

#[test]
fn clefs() {
    for (clef, expected) in [
        ("", Clef::Treble),
        ("%G-2", Clef::Treble),
        ("%g-2", Clef::Treble8vb),
        ("%F-4", Clef::Bass),
        ("%C-1", Clef::Soprano),
        ("%C-2", Clef::MezzoSoprano),
        ("%C-3", Clef::Alto),
        ("%C-4", Clef::Tenor),
        ("%C-5", Clef::Baritone),
    ] {
        assert_eq!(first_bar(&format!("{clef}C")).clef, Some(expected));
    }
}

#[test]
fn keys() {
    for (key, fifths) in [("", 0), ("$xFCG ", 3), ("$bBE ", -2)] {
        let key_sig = first_bar(&format!("{key}C")).key_sig;
        assert_eq!(key_sig, Some(KeySignature { fifths }));
    }
}

#[test]
fn later_bars_have_what_is_set_there() {
    let bars = read("C/$xF D/%F-4E").unwrap().bars;
    let key_sig = Some(KeySignature { fifths: 1 });
    assert_eq!((bars[1].clef, bars[1].key_sig), (None, key_sig));
    assert_eq!((bars[2].clef, bars[2].key_sig), (Some(Clef::Bass), None));
}

#[test]
fn meters() {
    let meter = |numerator, denominator| {
        Some(TimeSignature {
            numerator,
            denominator,
        })
    };
    for (text, time_sig, time_symbol) in [
        ("C", None, None),
        ("@c C", meter(4, 4), Some(TimeSymbol::Common)),
        ("@c/ C", meter(2, 2), Some(TimeSymbol::Cut)),
        ("@3/128 C", meter(3, 128), None),
    ] {
        let bar = first_bar(text);
        assert_eq!((bar.time_sig, bar.time_symbol), (time_sig, time_symbol));
    }
}

#[test]
fn barlines_and_bars() {
    let reading = read("//:C/DE//F://:G").unwrap();
    let barlines: Vec<_> = reading
        .bars
        .iter()
        .map(|bar| (bar.barline_left, bar.barline_right))
        .collect();
    let expected = [
        (Barline::RepeatStart, Barline::Normal),
        (Barline::Normal, Barline::Double),
        (Barline::Normal, Barline::RepeatEnd),
        (Barline::RepeatStart, Barline::Normal),
    ];
    assert_eq!(barlines, expected);

    let second = reading.bars[1];
    assert_eq!((second.clef, second.key_sig), (None, None));
    let places: Vec<_> = reading.notes_of(&second).iter().map(|n| n.place).collect();
    assert_eq!(places, [6, 7]);
    assert!(reading.notes_of(&second).iter().all(|note| note.bar == 2));
}

#[test]
fn notes_of_a_foreign_bar() {
    let reading = read("C").unwrap();
    let bar = Bar {
        first_note: 1,
        note_count: usize::MAX,
        ..reading.bars[0]
    };
    assert!(reading.notes_of(&bar).is_empty());
}

#[test]
fn durations() {
    let notes = read("0C9C1C2C4C8C6C3C5C7C").unwrap().notes;
    let durations: Vec<_> = notes.iter().filter_map(|note| note.duration).collect();
    let expected = [
        Duration::Longa,
        Duration::Breve,
        Duration::Whole,
        Duration::Half,
        Duration::Quarter,
        Duration::Eighth,
        Duration::Sixteenth,
        Duration::ThirtySecond,
        Duration::SixtyFourth,
        Duration::HundredTwentyEighth,
    ];
    assert_eq!(durations, expected);
}

#[test]
fn marks_in_order_of_arrival() {
    let notes = read("(Ct)t").unwrap().notes;
    let expected = [
        Articulation::Trill,
        Articulation::Fermata,
        Articulation::Trill,
    ];
    assert_eq!(notes[0].articulations[..], expected);
}

#[test]
fn pitches_by_name() {
    let notes = read("xxC,bbB''nF").unwrap().notes;
    let names: Vec<_> = notes.iter().map(|n| n.pitches[0].to_string()).collect();
    assert_eq!(names, ["C##4", "Bbb3", "F5"]);
}

#[test]
fn ties_and_beams() {
    let notes = read("{C+C+C}D").unwrap().notes;
    let ties: Vec<_> = notes.iter().map(|note| note.ties).collect();
    assert_eq!(ties, [Ties::Start, Ties::Both, Ties::End, Ties::None]);
    let beams: Vec<_> = notes.iter().map(|note| note.beam).collect();
    let expected = [
        BeamState::Begin,
        BeamState::Continue,
        BeamState::End,
        BeamState::None,
    ];
    assert_eq!(beams, expected);
}
