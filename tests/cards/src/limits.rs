//! Cards and records at the limits. What is expected is said here, beside the model.

use crate::check::Check;
use crate::library::Texts;
use crate::model::*;
use crate::random::Random;
use crate::records;
use crate::sizes::most_bytes;

/// The least note: a rest of 5 bytes.
const REST: [u8; 5] = [1, 1, 0, 0, 1];
/// Bytes of a bar and a note with every field.
const FULL_BAR: usize = 12;
const FULL_NOTE: usize = 43;

pub fn run(check: &mut Check, random: &mut Random) {
    great_records(check, random);
    too_many(check);
    counts(check);
    odd_cards(check);
    empty_bars(check);
    largest(check, random);
    readings(check);
}

fn expect(check: &Check, name: &str, found: u32, expected: u32) {
    if found != expected {
        check.stop(&format!("{name}: {found}, not {expected}"), &[]);
    }
}

/// Records of so many bars with so many notes each, all rests.
fn rests(bars: usize, notes: usize) -> Records {
    let mut records = Records::default();
    for bar in 0..bars {
        let mut words = [0; BAR_WORDS];
        words[FIRST_NOTE] = (bar * notes) as i32;
        words[NOTE_COUNT] = notes as i32;
        records.bars.extend(words);
        for _ in 0..notes {
            let mut words = [0; NOTE_WORDS];
            (words[PLACE], words[KIND], words[BAR]) = (1, 1, bar as i32 + 1);
            records.notes.extend(words);
        }
    }
    records
}

/// A card of so many bars with so many rests each, whether it is one or not.
fn rest_card(bars: usize, notes: usize) -> Vec<u8> {
    let mut card = vec![1];
    card.extend((bars as u32).to_le_bytes());
    for _ in 0..bars {
        card.push(0);
        card.extend((notes as u32).to_le_bytes());
        card.extend(REST.repeat(notes));
    }
    card
}

/// 100,000 notes, in one bar, in as many bars and between; and by chance.
fn great_records(check: &mut Check, random: &mut Random) {
    for (bars, notes) in [(1, MAX_NOTES), (MAX_NOTES, 1), (2, MAX_NOTES / 2), (1000, 100), (1, MAX_NOTES - 1)] {
        let records = rests(bars, notes);
        let card = check.and_back(&records, most_bytes(&records));
        if card != rest_card(bars, notes) {
            check.stop("another card of rests", &card);
        }
        let less = check.write(&records.notes, &records.bars, card.len() - 1);
        expect(check, &format!("{bars} bars of {notes} rests with a byte less"), less.number, NO_ROOM);
        for (notes, bars) in [(records.notes.len() - 1, records.bars.len()), (records.notes.len(), 0), (0, 0)] {
            let read = check.read(&card, notes, bars);
            expect(check, &format!("its card with {notes} and {bars} words"), read.number, NO_ROOM);
        }
    }
    let mut great = Records::default();
    great.bars.extend(records::bar(random, 2, 0, MAX_NOTES));
    (0..MAX_NOTES).for_each(|_| great.notes.extend(records::note(random, 2, 1)));
    check.and_back(&great, most_bytes(&great));
}

/// One note too many, in one bar, in its own bar, in as many bars.
fn too_many(check: &mut Check) {
    for (bars, notes) in [(1, MAX_NOTES + 1), (MAX_NOTES + 1, 1), (11, 9091), (1, 2 * MAX_NOTES)] {
        let records = rests(bars, notes);
        for lent in [most_bytes(&records), 0] {
            let written = check.write(&records.notes, &records.bars, lent);
            expect(check, &format!("{bars} bars of {notes} rests, {lent} bytes lent"), written.number, NOT_SUCH);
        }
        let card = rest_card(bars, notes);
        for (notes, bars) in [(records.notes.len(), records.bars.len()), (0, 0)] {
            let read = check.read(&card, notes, bars);
            expect(check, &format!("its card with {notes} and {bars} words"), read.number, NOT_SUCH);
        }
    }
}

const BAR_COUNTS: [u32; 9] = [0, 1, 2, 3, 4, 1 << 24, 1 << 31, i32::MAX as u32, u32::MAX];

/// Other counts of bars and of notes in a card of three bars with two rests each.
fn counts(check: &mut Check) {
    let card = rest_card(3, 2);
    for count in BAR_COUNTS {
        let mut changed = card.clone();
        changed[1..5].copy_from_slice(&count.to_le_bytes());
        let read = check.read(&changed, 6 * NOTE_WORDS, 3 * BAR_WORDS);
        expect(check, &format!("3 bars, count {count}"), read.number, if count == 3 { 0 } else { NOT_SUCH });
    }
    for bar in 0..3 {
        for count in BAR_COUNTS {
            let mut changed = card.clone();
            let at = 6 + bar * (5 + 2 * REST.len());
            changed[at..at + 4].copy_from_slice(&count.to_le_bytes());
            let read = check.read(&changed, 6 * NOTE_WORDS, 3 * BAR_WORDS);
            let number = if count == 2 { 0 } else { NOT_SUCH };
            expect(check, &format!("bar {bar} of 2 notes, count {count}"), read.number, number);
        }
    }
}

/// Cards that are hardly any, and the least one.
fn odd_cards(check: &mut Check) {
    let least = rest_card(1, 1);
    for length in 0..=least.len() {
        let number = if length == least.len() { 0 } else { NOT_SUCH };
        for (notes, bars) in [(NOTE_WORDS, BAR_WORDS), (NOTE_WORDS + 5, BAR_WORDS + 5)] {
            let read = check.read(&least[..length], notes, bars);
            expect(check, &format!("{length} bytes of the least card"), read.number, number);
        }
        let none = check.read(&least[..length], 0, 0).number;
        expect(check, "nothing lent", none, if number == 0 { NO_ROOM } else { NOT_SUCH });
    }
    for front in [0, 2, 255] {
        let mut card = least.clone();
        card[0] = front;
        let read = check.read(&card, NOTE_WORDS, BAR_WORDS);
        expect(check, &format!("front byte {front}"), read.number, NOT_SUCH);
    }
    let behind = [least.clone(), vec![0]].concat();
    let read = check.read(&behind, NOTE_WORDS, BAR_WORDS);
    expect(check, "a byte behind", read.number, NOT_SUCH);
    for (notes, bars) in [(0, 0), (0, BAR_WORDS), (NOTE_WORDS, 0), (NOTE_WORDS - 1, BAR_WORDS)] {
        let records = rests(1, 1);
        let written = check.write(&records.notes[..notes], &records.bars[..bars], 100);
        expect(check, &format!("{notes} and {bars} words of records"), written.number, NOT_SUCH);
    }
}

/// No bar, and a bar without a note before, between and behind others.
fn empty_bars(check: &mut Check) {
    let (none, empty) = (rest_card(0, 0), rest_card(1, 0));
    let bar = &rest_card(1, 1)[5..];
    let front = |bars: u8| vec![1, bars, 0, 0, 0];
    let cards = [
        none.clone(),
        empty.clone(),
        [&front(2), &empty[5..], bar].concat(),
        [&front(2), bar, &empty[5..]].concat(),
        [&front(3), bar, &empty[5..], bar].concat(),
        [&none, bar].concat(),
        [&none, &empty[5..]].concat(),
        rest_card(MAX_NOTES + 1, 0),
    ];
    for card in cards {
        let read = check.read(&card, 3 * NOTE_WORDS, 3 * BAR_WORDS);
        expect(check, "a card without a bar or with an empty one", read.number, NOT_SUCH);
        let none = check.read(&card, 0, 0);
        expect(check, "it, with nothing lent", none.number, NOT_SUCH);
    }
    let two = check.read(&[&front(2), bar, bar].concat(), 3 * NOTE_WORDS, 3 * BAR_WORDS);
    expect(check, "two bars", two.number, 0);
}

/// 100,000 bars of one note, every field full.
fn largest(check: &mut Check, random: &mut Random) {
    let mut records = Records::default();
    for number in 1..=MAX_NOTES {
        records.bars.extend([number as i32 - 1, 1, 8, 1, 7, 255, 128, 2, 3, 3]);
        let mut note = [0; NOTE_WORDS];
        note[..PITCHES].copy_from_slice(&[65_535, 3, 9, 3, 3, 3, 255, 128, 8, 255, 8, number as i32]);
        note[PITCHES..].copy_from_slice(&[65_535, 6, 9, 2].repeat(MAX_PITCHES));
        records.notes.extend(note);
    }
    let need = 5 + MAX_NOTES * (FULL_BAR + FULL_NOTE);
    let card = check.and_back(&records, need);
    expect(check, "bytes of the largest card", card.len() as u32, need as u32);
    println!("  the largest card: {need} bytes");
    let more = need + 1 + random.below(100);
    for (lent, number) in [(need - 1, NO_ROOM), (more, 0)] {
        let written = check.write(&records.notes, &records.bars, lent);
        expect(check, &format!("it, with {lent} bytes lent"), written.number, number);
    }
    let mut broken = card;
    *broken.last_mut().unwrap() = 5;
    for (notes, bars) in [(records.notes.len(), records.bars.len()), (0, 0)] {
        let read = check.read(&broken, notes, bars);
        expect(check, "it, with its last byte broken", read.number, NOT_SUCH);
    }
}

/// Readings at the limits: 100,000 bars, 100,000 notes in a bar, the last place.
fn readings(check: &mut Check) {
    let mut texts = Texts::new(MAX_NOTES);
    let figure = format!("!{}!{}", "C".repeat(1000), "f".repeat(99));
    for text in ["=1000".repeat(100).replace("0=", "0/="), figure, "C".repeat(65_535), " ".repeat(65_534) + "C"] {
        let Some(records) = texts.read(text.as_bytes()) else {
            check.stop("a text at the limits isn't read", text.as_bytes());
        };
        let card = check.and_back(&records, most_bytes(&records));
        let (notes, bars) = (records.notes.len() / NOTE_WORDS, records.bars.len() / BAR_WORDS);
        println!("  a text of {} bytes, {notes} notes, {bars} bars: {} bytes", text.len(), card.len());
    }
}
