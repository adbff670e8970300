//! Cards of random texts and of random records, and random bytes.

mod common;
mod exact;
mod laid_out;
mod numbers;

use common::accented;
use laid_out::comes_back;
use numbers::Random;
use urthmoli::words::{BAR_WORDS, BarWords, DiagnosticCell, NOTE_WORDS, NoteWords, bar, note};
use urthmoli::{
    Bar, Buffers, CardError, DIAGNOSTIC_CELLS, Note, Reading, max_card_bytes, read, read_card_into,
    read_into, write_card_into,
};

const CARDS: usize = 5_000;

const POISON: i32 = -1_515_870_811;

#[test]
fn random_texts_come_back() {
    let mut random = Random(0x8f1b_bcdc_ca62_c1d6);
    let texts = (0..20_000).map(|_| accented(&mut random));
    let readings: Vec<Reading> = texts.filter_map(|text| read(text).ok()).collect();
    assert!(readings.len() > 5_000, "{}", readings.len());
    for reading in &readings {
        let length = comes_back(reading).len();
        assert!(length <= max_card_bytes(reading.notes.len(), reading.bars.len()));
    }
}

#[test]
fn words_of_readings_come_back() {
    let mut random = Random(0x4528_21e6_38d0_1377);
    let mut notes = vec![[0; NOTE_WORDS]; 128];
    let mut bars = vec![[0; BAR_WORDS]; 128];
    let mut accepted = 0;
    for _ in 0..CARDS {
        let buffers = Buffers {
            notes: &mut notes,
            bars: &mut bars,
            figure: &mut vec![[0; NOTE_WORDS]; 128],
            diagnostics: &mut vec![DiagnosticCell::default(); DIAGNOSTIC_CELLS],
        };
        let Ok(records) = read_into(&accented(&mut random), buffers) else {
            continue;
        };
        accepted += 1;
        for words in records.notes {
            assert_eq!(Note::from_words(words).unwrap().to_words(), Some(*words));
        }
        for words in records.bars {
            assert_eq!(Bar::from_words(words).unwrap().to_words(), Some(*words));
        }
    }
    assert!(accepted > 1_000, "{accepted}");
}

/// A number from `least` to `greatest`.
fn from_to(random: &mut Random, least: i32, greatest: i32) -> i32 {
    let span = usize::try_from(greatest - least).unwrap() + 1;
    least + i32::try_from(random.below(span)).unwrap()
}

/// 0 or, every second time, a number from `least` to `greatest`.
fn zero_or(random: &mut Random, least: i32, greatest: i32) -> i32 {
    match random.below(2) {
        0 => 0,
        _ => from_to(random, least, greatest),
    }
}

/// Any note of this bar that a card holds.
fn any_note(random: &mut Random, number: i32) -> NoteWords {
    let mut words = [0; NOTE_WORDS];
    let mut set = |at: usize, word: i32| words[at] = word;
    let kind = zero_or(random, 1, 4);
    let actual = zero_or(random, 3, 255);
    let marks = zero_or(random, 1, 8);
    set(note::PLACE, from_to(random, 1, 65_535));
    set(note::KIND, kind);
    set(note::DURATION, from_to(random, 0, 9));
    set(note::DOTS, from_to(random, 0, 3));
    set(note::TIES, zero_or(random, 1, 3));
    set(note::BEAM, zero_or(random, 1, 3));
    set(note::TUPLET_ACTUAL, actual);
    if actual != 0 {
        set(note::TUPLET_NORMAL, 1 << (actual - 1).ilog2());
    }
    set(note::MARK_COUNT, marks);
    set(note::MARKS, from_to(random, 0, (1 << marks) - 1));
    set(note::BAR, number);
    if !matches!(kind, 1 | 4) {
        let count = from_to(random, 1, 8);
        set(note::PITCH_COUNT, count);
        for pitch in 0..usize::try_from(count).unwrap() {
            let first = note::PITCHES + 4 * pitch;
            set(first, from_to(random, 1, 65_535));
            set(first + 1, from_to(random, 0, 6));
            set(first + 2, from_to(random, 0, 9));
            set(first + 3, from_to(random, -2, 2));
        }
    }
    words
}

/// Any bar that a card holds.
fn any_bar(random: &mut Random, first: usize, count: usize) -> BarWords {
    let mut words = [0; BAR_WORDS];
    words[bar::FIRST_NOTE] = i32::try_from(first).unwrap();
    words[bar::NOTE_COUNT] = i32::try_from(count).unwrap();
    words[bar::CLEF] = zero_or(random, 1, 8);
    words[bar::KEY_SET] = from_to(random, 0, 1);
    words[bar::FIFTHS] = words[bar::KEY_SET] * from_to(random, -7, 7);
    words[bar::NUMERATOR] = zero_or(random, 1, 255);
    if words[bar::NUMERATOR] != 0 {
        words[bar::DENOMINATOR] = 1 << from_to(random, 0, 7);
        words[bar::SYMBOL] = from_to(random, 0, 2);
    }
    words[bar::LEFT] = zero_or(random, 1, 3);
    words[bar::RIGHT] = zero_or(random, 1, 3);
    words
}

/// Any records that a card holds, of up to four bars with up to four notes.
fn any_records(random: &mut Random) -> (Vec<NoteWords>, Vec<BarWords>) {
    let mut notes = Vec::new();
    let mut bars = Vec::new();
    for number in 1..=from_to(random, 1, 4) {
        let count = 1 + random.below(4);
        bars.push(any_bar(random, notes.len(), count));
        notes.extend((0..count).map(|_| any_note(random, number)));
    }
    (notes, bars)
}

#[test]
fn any_records_come_back() {
    let mut random = Random(0xa409_3822_299f_31d0);
    for _ in 0..CARDS {
        let (notes, bars) = any_records(&mut random);
        let mut bytes = vec![0xa5; max_card_bytes(notes.len(), bars.len())];
        let card = write_card_into(&notes, &bars, &mut bytes).unwrap().to_vec();
        assert!(bytes[card.len()..].iter().all(|byte| *byte == 0));

        let mut back_notes = vec![[POISON; NOTE_WORDS]; notes.len() + 1];
        let mut back_bars = vec![[POISON; BAR_WORDS]; bars.len() + 1];
        let back = read_card_into(&card, &mut back_notes, &mut back_bars).unwrap();
        assert_eq!((back.notes, back.bars), (&notes[..], &bars[..]));
        assert_eq!(back_notes[notes.len()], [0; NOTE_WORDS]);
        assert_eq!(back_bars[bars.len()], [0; BAR_WORDS]);

        let reading = Reading::from_card(&card).unwrap();
        assert_eq!(comes_back(&reading), card);
    }
}

/// A card is read only where what it reads to has that very card.
#[test]
fn changed_cards_are_refused_or_cards() {
    let mut random = Random(0x082e_fa98_ec4e_6c89);
    let mut cards = 0;
    for _ in 0..CARDS {
        let (notes, bars) = any_records(&mut random);
        let mut bytes = vec![0; max_card_bytes(notes.len(), bars.len())];
        let mut card = write_card_into(&notes, &bars, &mut bytes).unwrap().to_vec();
        let at = random.below(card.len());
        card[at] ^= 1 << random.below(8);
        match Reading::from_card(&card) {
            Ok(reading) => {
                assert_eq!(comes_back(&reading), card);
                cards += 1;
            }
            Err(error) => assert_eq!(error, CardError::NotACard),
        }
    }
    assert!((CARDS / 10..CARDS).contains(&cards), "{cards}");
}

#[test]
fn any_bytes() {
    let mut random = Random(0x3f84_d5b5_b547_0917);
    for _ in 0..CARDS {
        let mut card = random.text(|random| random.next().to_le_bytes()[0] & 3);
        card.insert(0, 1);
        if let Ok(reading) = Reading::from_card(&card) {
            assert_eq!(comes_back(&reading), card);
        }
    }
}
