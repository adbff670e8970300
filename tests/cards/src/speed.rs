//! Bytes of card in a second, and the size of cards beside their texts.

use std::hint::black_box;
use std::time::Instant;

use crate::library::{Texts, read_card, write_card};
use crate::lines;
use crate::model::*;
use crate::random::Random;
use crate::records;
use crate::sizes::most_bytes;

const RUNS: usize = 50;

struct Card {
    records: Records,
    bytes: Vec<u8>,
}

fn card(records: Records) -> Card {
    let bytes = write(&records.notes, &records.bars, most_bytes(&records));
    Card { records, bytes: bytes.cells[..bytes.length as usize].to_vec() }
}

pub fn run(random: &mut Random) {
    let short = incipits(random, 2000);
    let mut long = Records::default();
    for part in &short {
        append(&mut long, &part.records);
    }
    long.notes.truncate(10_000 * NOTE_WORDS);
    cut_bars(&mut long);
    let mut full = Records::default();
    full.bars.extend(records::bar(random, 4, 0, 10_000));
    for _ in 0..10_000 {
        full.notes.extend(full_note(random));
    }
    measure("short incipits of some 20 notes", &short[..200]);
    measure("a card of 10,000 notes", &[card(long)]);
    measure("a card of 10,000 notes with 8 pitches", &[card(full)]);
}

/// Cards of typical incipits; prints their size beside the texts.
fn incipits(random: &mut Random, count: usize) -> Vec<Card> {
    let mut texts = Texts::new(200);
    let mut text_bytes = 0;
    let mut cards = Vec::new();
    for _ in 0..count {
        let text = lines::incipit(random);
        if let Some(records) = texts.read(text.as_bytes()) {
            text_bytes += text.len();
            cards.push(card(records));
        }
    }
    let card_bytes: usize = cards.iter().map(|card| card.bytes.len()).sum();
    let notes: usize = cards.iter().map(|card| card.records.notes.len() / NOTE_WORDS).sum();
    println!(
        "  {} incipits, {notes} notes: {text_bytes} bytes of text, {card_bytes} of cards, ratio {:.2}",
        cards.len(),
        card_bytes as f64 / text_bytes as f64
    );
    cards
}

/// The records of another reading behind these.
fn append(records: &mut Records, more: &Records) {
    let notes = (records.notes.len() / NOTE_WORDS) as i32;
    let bars = (records.bars.len() / BAR_WORDS) as i32;
    for bar in more.bars.chunks_exact(BAR_WORDS) {
        records.bars.extend(bar);
        let first = records.bars.len() - BAR_WORDS + FIRST_NOTE;
        records.bars[first] += notes;
    }
    for note in more.notes.chunks_exact(NOTE_WORDS) {
        records.notes.extend(note);
        let bar = records.notes.len() - NOTE_WORDS + BAR;
        records.notes[bar] += bars;
    }
}

/// Leaves the bars of the notes that are left.
fn cut_bars(records: &mut Records) {
    let notes = (records.notes.len() / NOTE_WORDS) as i32;
    let last = records.notes[records.notes.len() - NOTE_WORDS + BAR] as usize;
    records.bars.truncate(last * BAR_WORDS);
    let bar = (last - 1) * BAR_WORDS;
    records.bars[bar + NOTE_COUNT] = notes - records.bars[bar + FIRST_NOTE];
}

/// A note of the first bar with every field and 8 pitches.
fn full_note(random: &mut Random) -> [i32; NOTE_WORDS] {
    let mut note = records::note(random, 4, 1);
    note[KIND] = 3;
    note[PITCH_COUNT] = MAX_PITCHES as i32;
    for pitch in note[PITCHES..].chunks_exact_mut(PITCH_WORDS) {
        pitch.copy_from_slice(&records::pitch(random));
    }
    note
}

/// The best of several runs over all cards, with just enough lent.
fn measure(name: &str, cards: &[Card]) {
    let bytes: usize = cards.iter().map(|card| card.bytes.len()).sum();
    let notes: usize = cards.iter().map(|card| card.records.notes.len() / NOTE_WORDS).sum();
    println!("  {name}: {} of {bytes} bytes, {notes} notes", cards.len());
    let print = |name: &str, seconds: f64| {
        let (rate, each) = (bytes as f64 / seconds / 1e6, seconds / notes as f64 * 1e9);
        println!("    {name}: {rate:.0} MB of card a second, {each:.1} ns a note");
    };
    let mut lent = vec![0; bytes];
    let writing = best(|| {
        for card in cards {
            let lent = black_box(&mut lent[..card.bytes.len()]);
            assert_eq!(write_card(&card.records.notes, &card.records.bars, lent).0, 0);
        }
    });
    print("writing", writing);
    let mut lent_notes = vec![0; notes * NOTE_WORDS];
    let mut lent_bars = vec![0; notes * BAR_WORDS];
    let reading = best(|| {
        for card in cards {
            let lent_notes = black_box(&mut lent_notes[..card.records.notes.len()]);
            let lent_bars = black_box(&mut lent_bars[..card.records.bars.len()]);
            assert_eq!(read_card(&card.bytes, lent_notes, lent_bars).0, 0);
        }
    });
    print("reading", reading);
}

/// The shortest of several runs, in seconds.
fn best(mut run: impl FnMut()) -> f64 {
    let mut shortest = f64::MAX;
    for _ in 0..RUNS {
        let start = Instant::now();
        run();
        shortest = shortest.min(start.elapsed().as_secs_f64());
    }
    shortest
}
