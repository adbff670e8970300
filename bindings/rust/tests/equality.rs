//! What equality and hashes of pitches, notes and readings leave out, and what they don't.

mod common;
mod exact;
mod numbers;

use common::accented;
use exact::words_of;
use numbers::Random;
use std::collections::HashSet;
use std::hash::{BuildHasher, RandomState};
use urthmoli::words::{NoteWords, note};
use urthmoli::{
    Articulation, BeamState, Duration, List, Note, NoteKind, Pitch, Reading, Step, Ties,
    TupletInfo, read,
};

fn notes(text: &str) -> Vec<Note> {
    read(text).unwrap().notes
}

#[test]
fn the_same_opening_typed_twice() {
    let (tight, wide) = (notes("CDE"), notes("C D E"));
    assert_eq!(tight, wide);
    assert_ne!(words_of(&tight), words_of(&wide));
    let pitches = |notes: &[Note]| {
        notes
            .iter()
            .map(|note| note.pitches)
            .collect::<HashSet<_>>()
    };
    assert_eq!(pitches(&tight), pitches(&wide));
    assert_eq!(pitches(&tight).len(), 3);
}

#[test]
fn places_and_bars_are_left_out() {
    let state = RandomState::new();
    let first = notes("4.xC^E")[0];
    for other in [
        notes("  4.xC^ E")[0],
        notes("8D/4.xC^E")[1],
        notes("!4.xC^E!f")[1],
        notes("$xC 4.C^E")[0],
    ] {
        assert_eq!(first, other);
        assert_eq!(state.hash_one(first), state.hash_one(other));
        assert_ne!(first.to_words(), other.to_words());
    }
}

#[test]
fn all_else_counts() {
    let plain = notes("4C^E")[0];
    let marks: List<Articulation, 8> = notes("4C^Et")[0].articulations;
    let pitches: List<Pitch, 8> = notes("4C^xE")[0].pitches;
    let tuplet = TupletInfo {
        actual_notes: 3,
        normal_notes: 2,
    };
    let changes: [&dyn Fn(&mut Note); 8] = [
        &|note| note.kind = NoteKind::Grace,
        &|note| note.duration = Some(Duration::Half),
        &|note| note.dot_count = 1,
        &|note| note.ties = Ties::Start,
        &|note| note.beam = BeamState::Begin,
        &|note| note.tuplet = Some(tuplet),
        &|note| note.articulations = marks,
        &|note| note.pitches = pitches,
    ];
    let mut seen = HashSet::from([plain]);
    for change in changes {
        let mut note = plain;
        change(&mut note);
        assert!(seen.insert(note), "{note:?}");
    }
    let places: [&dyn Fn(&mut Note); 3] = [
        &|note| note.place = 7,
        &|note| note.pitch_places = notes(" 4C^E")[0].pitch_places,
        &|note| note.bar = 7,
    ];
    for change in places {
        let mut note = plain;
        change(&mut note);
        assert_eq!(note, plain);
        assert_ne!(note.to_words(), plain.to_words());
    }
}

/// Words hold the places too, so that no words stand for a note whose places don't fit them.
#[test]
fn places_without_words() {
    let (chord, note) = (notes("4C^E")[0], notes("4C")[0]);
    let changes: [&dyn Fn(&mut Note); 6] = [
        &|made| made.place = u32::MAX,
        &|made| made.bar = u32::MAX,
        &|made| made.pitch_places = note.pitch_places,
        &|made| made.pitches = note.pitches,
        &|made| made.duration = None,
        &|made| made.pitch_places = notes("-")[0].pitch_places,
    ];
    for change in changes {
        let mut made = chord;
        change(&mut made);
        assert_eq!(made.to_words(), None, "{made:?}");
    }
    assert!(chord.to_words().is_some());
}

#[test]
fn spelling_counts() {
    let [sharp, flat] = [(Step::C, 1), (Step::D, -1)].map(|(step, alter)| Pitch {
        step,
        octave: 4,
        alter,
    });
    assert_ne!(sharp, flat);
    assert_eq!(sharp.to_midi(), flat.to_midi());
}

/// The words without where the note stands.
fn without_places(mut words: NoteWords) -> NoteWords {
    words[note::PLACE] = 0;
    words[note::BAR] = 0;
    let (pitches, _) = words[note::PITCHES..].as_chunks_mut::<4>();
    for [place, ..] in pitches {
        *place = 0;
    }
    words
}

/// Notes of random texts are equal exactly where their words without places are, and hash alike then.
#[test]
fn equal_as_the_words_are() {
    let state = RandomState::new();
    let mut random = Random(0x1319_8a2e_0370_7344);
    let texts = (0..200).map(|_| accented(&mut random));
    let readings: Vec<Reading> = texts.filter_map(|text| read(text).ok()).collect();
    let notes: Vec<Note> = readings.into_iter().flat_map(|made| made.notes).collect();
    let words: Vec<NoteWords> = words_of(&notes).into_iter().map(without_places).collect();
    assert!(notes.len() > 500, "{}", notes.len());
    let mut equal = 0;
    for (one, one_words) in notes.iter().zip(&words) {
        for (other, other_words) in notes.iter().zip(&words) {
            assert_eq!(one == other, one_words == other_words);
            if one == other {
                assert_eq!(state.hash_one(one), state.hash_one(other));
                equal += 1;
            }
        }
    }
    assert!(equal > 2 * notes.len(), "{equal}");
}

#[test]
fn diagnostics_keep_their_places() {
    let (tight, wide) = (read("CD)").unwrap(), read("C D)").unwrap());
    assert_eq!((&tight.notes, &tight.bars), (&wide.notes, &wide.bars));
    assert_ne!(tight, wide);
    let clean = [read("CD").unwrap(), read("C D").unwrap()];
    assert_eq!(clean[0], clean[1]);
    assert_eq!(HashSet::from(clean).len(), 1);
}
