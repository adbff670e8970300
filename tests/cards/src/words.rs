//! Records with a word out of its range, a relation broken, or a slice cut.

use crate::check::Check;
use crate::model::*;
use crate::random::Random;
use crate::records::{self, Shape, TINY, records, wide_records};
use crate::sizes::most_bytes;

pub fn run(check: &mut Check, random: &mut Random, count: u64) {
    for case in 0..count {
        check.case = case;
        let wide = random.one_in(20);
        let base = if wide { wide_records(random) } else { records(random, TINY) };
        judge(check, random, &base);
        if wide {
            some_words(check, random, &base);
        } else {
            each_word(check, random, &base);
            cuts(check, &base);
        }
        if case % 10 == 0 {
            pairs(check, random);
        }
        for relation in 0..BAR_RELATIONS {
            let mut broken = base.clone();
            break_bars(random, &mut broken, relation);
            judge(check, random, &broken);
        }
        for relation in 0..NOTE_RELATIONS {
            let mut broken = base.clone();
            let at = random.below(base.notes.len() / NOTE_WORDS) * NOTE_WORDS;
            break_note(random, &mut broken.notes[at..at + NOTE_WORDS], relation);
            judge(check, random, &broken);
        }
    }
}

/// Writes them with enough lent, now and then with less; such records are read back.
fn judge(check: &mut Check, random: &mut Random, records: &Records) {
    let most = most_bytes(records);
    let written = check.write(&records.notes, &records.bars, most);
    if written.number == 0 {
        check.and_back(records, written.length as usize);
        check.write(&records.notes, &records.bars, written.length as usize - 1);
    } else if random.one_in(4) {
        // 14 also where nothing would fit
        check.write(&records.notes, &records.bars, random.of(&[0, 1, 5, most / 2]));
    }
}

fn note_range(word: usize) -> (i32, i32) {
    match word {
        PLACE => (1, 65_535),
        KIND => (0, 4),
        DURATION => (0, 9),
        DOTS | TIES | BEAM => (0, 3),
        ACTUAL => (3, 255),
        NORMAL => (2, 128),
        MARK_COUNT | PITCH_COUNT => (0, 8),
        MARKS => (0, 255),
        BAR => (1, TINY.bars as i32),
        _ => [(1, 65_535), (0, 6), (0, 9), (-2, 2)][(word - PITCHES) % PITCH_WORDS],
    }
}

fn bar_range(word: usize) -> (i32, i32) {
    let notes = (TINY.bars * TINY.notes) as i32;
    [(0, notes), (1, notes), (0, 8), (0, 1), (-7, 7), (0, 255), (1, 128), (0, 2), (0, 3), (0, 3)][word]
}

/// Just out of the range, at its ends, far out, and by chance. Some are the old word in their low bytes.
fn values(random: &mut Random, (low, high): (i32, i32), old: i32) -> [i32; 18] {
    [
        low - 1,
        low,
        high,
        high + 1,
        -1,
        0,
        1,
        2,
        i32::MIN,
        i32::MAX,
        old.wrapping_add(1),
        old.wrapping_sub(1),
        old.wrapping_add(256),
        old.wrapping_add(65_536),
        old.wrapping_neg(),
        old ^ 1 << random.below(32),
        random.range(-10, 300),
        random.next() as i32,
    ]
}

fn each_word(check: &mut Check, random: &mut Random, base: &Records) {
    let mut changed = base.clone();
    for at in 0..base.notes.len() {
        for value in values(random, note_range(at % NOTE_WORDS), base.notes[at]) {
            changed.notes[at] = value;
            judge(check, random, &changed);
        }
        changed.notes[at] = base.notes[at];
    }
    for at in 0..base.bars.len() {
        for value in values(random, bar_range(at % BAR_WORDS), base.bars[at]) {
            changed.bars[at] = value;
            judge(check, random, &changed);
        }
        changed.bars[at] = base.bars[at];
    }
}

/// Every denominator, every two tuplet words, every mark bit under every count.
fn pairs(check: &mut Check, random: &mut Random) {
    let base = records(random, Shape { bars: 1, notes: 1 });
    let mut changed = base.clone();
    for denominator in -2..=260 {
        changed.bars[NUMERATOR] = random.range(1, 255);
        changed.bars[DENOMINATOR] = denominator;
        judge(check, random, &changed);
    }
    changed.bars.clone_from(&base.bars);
    for actual in -2..=260 {
        for normal in [0, 1, 2, 3, 4, 8, 16, 32, 64, 128, 256] {
            (changed.notes[ACTUAL], changed.notes[NORMAL]) = (actual, normal);
            judge(check, random, &changed);
        }
    }
    changed.notes.clone_from(&base.notes);
    for count in -1..=9 {
        for bit in 0..32 {
            (changed.notes[MARK_COUNT], changed.notes[MARKS]) = (count, 1 << bit);
            judge(check, random, &changed);
        }
    }
}

/// A few words of many records.
fn some_words(check: &mut Check, random: &mut Random, base: &Records) {
    let mut changed = base.clone();
    for _ in 0..20 {
        let at = random.below(base.notes.len());
        let values = values(random, note_range(at % NOTE_WORDS), base.notes[at]);
        changed.notes[at] = random.of(&values);
        judge(check, random, &changed);
        changed.notes[at] = base.notes[at];
    }
    for _ in 0..20 {
        let at = random.below(base.bars.len());
        let values = values(random, bar_range(at % BAR_WORDS), base.bars[at]);
        changed.bars[at] = random.of(&values);
        judge(check, random, &changed);
        changed.bars[at] = base.bars[at];
    }
}

const BAR_RELATIONS: usize = 20;

/// Breaks a relation of bars, or of bars and their notes. A few changes break nothing.
fn break_bars(random: &mut Random, records: &mut Records, relation: usize) {
    let (notes, bars) = (&mut records.notes, &mut records.bars);
    let at = random.below(bars.len() / BAR_WORDS) * BAR_WORDS;
    let bar = &mut bars[at..at + BAR_WORDS];
    match relation {
        0 => bar[FIRST_NOTE] += random.of(&[-1, 1]),
        1 => every(bars, BAR_WORDS, FIRST_NOTE, 1),
        2 => every(notes, NOTE_WORDS, BAR, random.of(&[-1, 1])),
        3 => bar[NOTE_COUNT] += random.of(&[-1, 1]),
        4 => notes.truncate(notes.len() - NOTE_WORDS),
        5 => notes.extend(records::note(random, 2, bars.len() / BAR_WORDS)),
        6 => bars.truncate(bars.len() - BAR_WORDS),
        7 => bars.extend(records::bar(random, 2, notes.len() / NOTE_WORDS, 1)),
        8 => move_note(random, records),
        9 => odd_bar(random, records, 0),
        10 => odd_bar(random, records, 1),
        11 => odd_bar(random, records, -1),
        12 => bars.clear(),
        13 => notes.clear(),
        14 => *records = Records::default(),
        15 => (bar[KEY_SET], bar[FIFTHS]) = (0, random.range(-7, 7)),
        16 => (bar[KEY_SET], bar[FIFTHS]) = (1, random.range(-8, 8)),
        17 => {
            bar[NUMERATOR] = random.range(1, 255);
            bar[DENOMINATOR] = random.of(&[0, 1, 3, 5, 6, 7, 12, 24, 48, 96, 127, 128, 129, 192, 255, 256, 512, -128]);
        }
        18 => {
            bar[NUMERATOR] = 0;
            bar[DENOMINATOR] = random.of(&[0, 1, 4, 128]);
        }
        _ => {
            bar[NUMERATOR] = 0;
            bar[DENOMINATOR] = 0;
            bar[SYMBOL] = random.range(0, 2);
        }
    }
}

/// Adds to one word of every record.
fn every(words: &mut [i32], record: usize, word: usize, more: i32) {
    words.iter_mut().skip(word).step_by(record).for_each(|word| *word += more);
}

/// Moves a note between two bars; the bar numbers follow or stay.
fn move_note(random: &mut Random, records: &mut Records) {
    if records.bars.len() != 2 * BAR_WORDS {
        return;
    }
    let more = random.of(&[-1, 1]);
    records.bars[NOTE_COUNT] += more;
    records.bars[BAR_WORDS + FIRST_NOTE] += more;
    records.bars[BAR_WORDS + NOTE_COUNT] -= more;
    if random.one_in(2) {
        let first = records.bars[NOTE_COUNT];
        for (index, note) in records.notes.chunks_exact_mut(NOTE_WORDS).enumerate() {
            note[BAR] = if (index as i32) < first { 1 } else { 2 };
        }
    }
}

/// A bar of so many notes, 0 or less too, behind the others; the bar before it makes up for them.
fn odd_bar(random: &mut Random, records: &mut Records, count: i32) {
    let notes = (records.notes.len() / NOTE_WORDS) as i32;
    let last = records.bars.len() - BAR_WORDS;
    records.bars[last + NOTE_COUNT] -= count;
    let mut bar = records::bar(random, 2, 0, 0);
    bar[FIRST_NOTE] = notes - count;
    bar[NOTE_COUNT] = count;
    records.bars.extend(bar);
}

const NOTE_RELATIONS: usize = 14;

/// Breaks a relation of a note. A few changes break nothing.
fn break_note(random: &mut Random, note: &mut [i32], relation: usize) {
    let unused = note[PITCH_COUNT] as usize;
    match relation {
        0 => note[NORMAL] = random.of(&[0, 1, 2, 3, 4, 8, 128, 256]),
        1 => (note[ACTUAL], note[NORMAL]) = (0, random.of(&[0, 1, 2, 4])),
        2 => (note[ACTUAL], note[NORMAL]) = random.of(&[(1, 0), (1, 1), (2, 1), (2, 2), (3, 2), (3, 1), (-3, 0)]),
        3 => (note[ACTUAL], note[NORMAL]) = random.of(&[(4, 4), (4, 2), (5, 4), (8, 8), (9, 8), (129, 128), (129, 64)]),
        4 => (note[ACTUAL], note[NORMAL]) = random.of(&[(255, 128), (256, 128), (257, 256), (259, 2), (255, 256)]),
        5 => {
            note[MARK_COUNT] = random.range(0, 8);
            note[MARKS] = 1 << note[MARK_COUNT];
        }
        6 => {
            note[MARK_COUNT] = random.range(0, 8);
            note[MARKS] = 1_i32 << random.below(32);
        }
        7 => note[MARK_COUNT] = random.range(0, 9),
        8 if unused < MAX_PITCHES => {
            let at = PITCHES + unused * PITCH_WORDS + random.below((MAX_PITCHES - unused) * PITCH_WORDS);
            note[at] = random.of(&[1, -1, 60, i32::MIN]);
        }
        9 => note[KIND] = random.range(0, 5),
        10 => {
            note[PITCH_COUNT] = 0;
            note[PITCHES..].fill(0);
        }
        11 => note[PITCH_COUNT] = random.range(0, 9),
        12 => {
            note[KIND] = random.of(&[1, 4]);
            note[PITCH_COUNT] = random.range(0, 8);
            pitches(random, note);
        }
        _ => {
            note[KIND] = random.of(&[0, 2, 3]);
            note[PITCH_COUNT] = random.range(0, 8);
            pitches(random, note);
        }
    }
}

/// As many pitches as the note counts.
fn pitches(random: &mut Random, note: &mut [i32]) {
    let count = note[PITCH_COUNT] as usize;
    note[PITCHES..].fill(0);
    for used in note[PITCHES..].chunks_exact_mut(PITCH_WORDS).take(count) {
        used.copy_from_slice(&records::pitch(random));
    }
}

/// Slices of every length that is no multiple of the record, shorter and longer.
fn cuts(check: &mut Check, base: &Records) {
    let mut long = base.clone();
    long.notes.extend([0; NOTE_WORDS]);
    long.bars.extend([0; BAR_WORDS]);
    let most = most_bytes(&long);
    for notes in 0..=long.notes.len() {
        check.write(&long.notes[..notes], &base.bars, most);
    }
    for bars in 0..=long.bars.len() {
        check.write(&base.notes, &long.bars[..bars], most);
    }
    for less in 1..=BAR_WORDS {
        check.write(&base.notes[less..], &base.bars[..base.bars.len() - less], most);
    }
}
