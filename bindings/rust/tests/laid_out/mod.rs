//! Cards laid out by hand, as docs/CARD.md has them.

use crate::exact::words_of;
use std::iter;
use urthmoli::{Bar, Clef, Duration, Note, Pitch, Reading, TimeSymbol};

/// The byte that holds a word.
fn byte(word: i32) -> u8 {
    u8::try_from(word).unwrap()
}

fn unless_zero(word: i32) -> Vec<u8> {
    let field = (word != 0).then(|| byte(word));
    field.into_iter().collect()
}

/// A count and what it counts, or nothing.
fn counted(count: usize, bytes: Vec<u8>) -> Vec<u8> {
    match u8::try_from(count).unwrap() {
        0 => vec![],
        count => [vec![count], bytes].concat(),
    }
}

/// A bit map of the fields that aren't empty, the bytes that are always there, then the fields.
fn mapped(always: &[u8], fields: &[Vec<u8>]) -> Vec<u8> {
    let stands = fields.iter().map(|field| u8::from(!field.is_empty()));
    let map = stands.zip(0..).map(|(stands, bit)| stands << bit).sum();
    [&[map], always, &fields.concat()].concat()
}

fn bar_bytes(bar: &Bar) -> Vec<u8> {
    let key = bar.key_sig.map(|key| byte(i32::from(key.fifths) + 7));
    let symbol = byte(bar.time_symbol.map_or(0, TimeSymbol::word));
    let meter = bar
        .time_sig
        .map(|meter| vec![meter.numerator, meter.denominator, symbol]);
    let fields = [
        unless_zero(bar.clef.map_or(0, Clef::word)),
        key.into_iter().collect(),
        meter.unwrap_or_default(),
        unless_zero(bar.barline_left.word()),
        unless_zero(bar.barline_right.word()),
    ];
    mapped(
        &u32::try_from(bar.note_count).unwrap().to_le_bytes(),
        &fields,
    )
}

fn note_bytes(note: &Note) -> Vec<u8> {
    let duration = note.duration.map_or(0, Duration::word);
    let [low, high] = u16::try_from(note.place).unwrap().to_le_bytes();
    let marks = note
        .articulations
        .iter()
        .zip(0..)
        .map(|(mark, bit)| byte(mark.word()) << bit);
    let pitches = iter::zip(&note.pitches, &note.pitch_places);
    let fields = [
        unless_zero(note.kind.word()),
        unless_zero(note.ties.word()),
        unless_zero(note.beam.word()),
        note.tuplet
            .iter()
            .map(|tuplet| tuplet.actual_notes)
            .collect(),
        counted(note.articulations.len(), vec![marks.sum()]),
        counted(
            note.pitches.len(),
            pitches
                .flat_map(|(pitch, place)| pitch_bytes(*pitch, *place))
                .collect(),
        ),
    ];
    mapped(&[low, high, byte(4 * duration) + note.dot_count], &fields)
}

fn pitch_bytes(pitch: Pitch, place: u32) -> [u8; 4] {
    let [low, high] = u16::try_from(place).unwrap().to_le_bytes();
    let tone = byte(pitch.step.word() + 7 * i32::from(pitch.octave));
    [low, high, tone, byte(i32::from(pitch.alter) + 2)]
}

fn laid_out(reading: &Reading) -> Vec<u8> {
    let mut card = vec![1];
    card.extend(u32::try_from(reading.bars.len()).unwrap().to_le_bytes());
    for bar in &reading.bars {
        card.extend(bar_bytes(bar));
        card.extend(reading.notes_of(bar).iter().flat_map(note_bytes));
    }
    card
}

/// The reading's card, which is laid out so and has the same notes and bars, places included, and no
/// diagnostics.
pub fn comes_back(reading: &Reading) -> Vec<u8> {
    let card = reading.to_card().unwrap();
    assert_eq!(card, laid_out(reading));
    let back = Reading::from_card(&card).unwrap();
    assert_eq!(words_of(&back.notes), words_of(&reading.notes));
    assert_eq!(back.notes, reading.notes);
    assert_eq!(back.bars, reading.bars);
    assert!(back.diagnostics.is_empty());
    card
}
