//! Random such records.

use crate::model::*;
use crate::random::Random;

/// How many bars and notes are drawn.
#[derive(Clone, Copy)]
pub struct Shape {
    pub bars: usize,
    pub notes: usize,
}

pub const TINY: Shape = Shape { bars: 2, notes: 2 };
pub const SMALL: Shape = Shape { bars: 5, notes: 6 };

/// Such records of 1 to some bars with 1 to some notes each. Now and then a count needs its second byte.
pub fn records(random: &mut Random, shape: Shape) -> Records {
    let mut records = Records::default();
    // how often a bit stands, of 4
    let dense = random.below(5);
    let bars = 1 + random.below(shape.bars);
    for number in 1..=bars {
        let notes = 1 + random.small(shape.notes);
        let first = records.notes.len() / NOTE_WORDS;
        records.bars.extend(bar(random, dense, first, notes));
        for _ in 0..notes {
            records.notes.extend(note(random, dense, number));
        }
    }
    records
}

/// Records of some hundred bars or of bars of some hundred notes.
pub fn wide_records(random: &mut Random) -> Records {
    let shape = if random.one_in(2) { Shape { bars: 600, notes: 2 } } else { Shape { bars: 2, notes: 900 } };
    records(random, shape)
}

fn stands(random: &mut Random, dense: usize) -> bool {
    random.below(4) < dense
}

/// A word from 1 to the greatest, or 0.
fn word(random: &mut Random, dense: usize, greatest: i32) -> i32 {
    if stands(random, dense) { random.range(1, greatest) } else { 0 }
}

pub fn bar(random: &mut Random, dense: usize, first: usize, notes: usize) -> [i32; BAR_WORDS] {
    let mut bar = [0; BAR_WORDS];
    bar[FIRST_NOTE] = first as i32;
    bar[NOTE_COUNT] = notes as i32;
    bar[CLEF] = word(random, dense, 8);
    if stands(random, dense) {
        bar[KEY_SET] = 1;
        bar[FIFTHS] = if random.one_in(6) { 0 } else { random.range(-7, 7) };
    }
    if stands(random, dense) {
        bar[NUMERATOR] = random.range(1, 255);
        bar[DENOMINATOR] = 1 << random.below(8);
        bar[SYMBOL] = random.range(0, 2);
    }
    bar[LEFT] = word(random, dense, 3);
    bar[RIGHT] = word(random, dense, 3);
    bar
}

pub fn note(random: &mut Random, dense: usize, number: usize) -> [i32; NOTE_WORDS] {
    let mut note = [0; NOTE_WORDS];
    note[PLACE] = place(random);
    note[KIND] = word(random, dense, 4);
    note[DURATION] = random.range(0, 9);
    note[DOTS] = random.range(0, 3);
    note[TIES] = word(random, dense, 3);
    note[BEAM] = word(random, dense, 3);
    if stands(random, dense) {
        let greatest = random.of(&[18, 255]);
        note[ACTUAL] = random.range(3, greatest);
        note[NORMAL] = normal_of(note[ACTUAL]);
    }
    if stands(random, dense) {
        note[MARK_COUNT] = random.range(1, 8);
        note[MARKS] = random.range(0, (1 << note[MARK_COUNT]) - 1);
    }
    note[BAR] = number as i32;
    if note[KIND] != 1 && note[KIND] != 4 {
        let count = if random.one_in(2) { 1 } else { random.range(1, MAX_PITCHES as i32) };
        note[PITCH_COUNT] = count;
        for used in note[PITCHES..].chunks_exact_mut(PITCH_WORDS).take(count as usize) {
            used.copy_from_slice(&pitch(random));
        }
    }
    note
}

fn place(random: &mut Random) -> i32 {
    match random.below(4) {
        0 => random.of(&[255, 256, 257, 0xff00, 0x7fff, 0x8000]),
        _ => random.range(1, 65_535),
    }
}

pub fn pitch(random: &mut Random) -> [i32; PITCH_WORDS] {
    [place(random), random.range(0, 6), random.range(0, 9), random.range(-2, 2)]
}
