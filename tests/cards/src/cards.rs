//! Random bytes, loose cards, and changes to cards.

use crate::check::Check;
use crate::loose;
use crate::model::{BAR_WORDS, NOTE_WORDS};
use crate::random::Random;
use crate::records::{SMALL, TINY, records, wide_records};
use crate::sizes::{about, most_bytes};

/// Cards of more bytes aren't cut at each length.
const WIDE: usize = 3000;

pub fn run(check: &mut Check, random: &mut Random, count: u64) {
    every_map(check, random);
    let mut other = such_card(check, random);
    for case in 0..count {
        check.case = case;
        let card = such_card(check, random);
        let wide = card.len() > WIDE;
        if !wide {
            cuts(check, &card);
        }
        for change in 0..CHANGES {
            for _ in 0..4 {
                let mut changed = card.clone();
                alter(random, &mut changed, &other, change);
                if random.one_in(4) {
                    let more = random.below(CHANGES);
                    alter(random, &mut changed, &other, more);
                }
                judge(check, random, &changed);
            }
        }
        if !wide && random.one_in(50) {
            every_byte(check, &card);
        }
        for _ in 0..40 {
            let card = loose::card(random);
            judge(check, random, &card);
        }
        let bytes = random_bytes(random);
        judge(check, random, &bytes);
        other = card;
    }
}

fn such_card(check: &mut Check, random: &mut Random) -> Vec<u8> {
    let records = match random.below(300) {
        0 => wide_records(random),
        1..100 => records(random, SMALL),
        _ => records(random, TINY),
    };
    check.and_back(&records, most_bytes(&records))
}

/// Reads it with enough lent, both ways if accepted, then now and then with sizes about a few records: 14 comes first.
fn judge(check: &mut Check, random: &mut Random, card: &[u8]) {
    check.both_ways(card);
    if random.one_in(3) {
        let notes = about((1 + random.below(4)) * NOTE_WORDS, NOTE_WORDS);
        let bars = about((1 + random.below(3)) * BAR_WORDS, BAR_WORDS);
        check.read(card, random.of(&notes), random.of(&bars));
    }
}

/// Every two bit maps, of a bar and of its note.
fn every_map(check: &mut Check, random: &mut Random) {
    for bar in 0..=255 {
        for note in 0..=255 {
            let card = loose::mapped(random, bar, note);
            check.both_ways(&card);
        }
    }
}

/// Every value of every byte.
fn every_byte(check: &mut Check, card: &[u8]) {
    let mut changed = card.to_vec();
    for at in 0..card.len() {
        for value in 0..=255 {
            changed[at] = value;
            check.both_ways(&changed);
        }
        changed[at] = card[at];
    }
}

/// Every length; the whole card is read first, so that its end stands behind the cut.
fn cuts(check: &mut Check, card: &[u8]) {
    check.both_ways(card);
    for length in 0..card.len() {
        if check.both_ways(&card[..length]) {
            check.stop("a cut card is accepted", &card[..length]);
        }
    }
}

const EDGES: [u8; 26] =
    [0, 1, 2, 3, 4, 5, 7, 8, 9, 14, 15, 16, 31, 32, 33, 39, 40, 63, 64, 65, 69, 70, 127, 128, 129, 255];
const COUNTS: [u32; 12] = [0, 1, 2, 3, 256, 257, 65_536, 65_537, 100_000, 100_001, i32::MAX as u32, u32::MAX];
const CHANGES: usize = 15;

/// Changes a card that isn't empty. The counts of bars and of the first bar's notes start at 1 and 6.
fn alter(random: &mut Random, card: &mut Vec<u8>, other: &[u8], change: usize) {
    if card.is_empty() {
        return;
    }
    let at = random.below(card.len());
    let end = (at + 1 + random.below(12)).min(card.len());
    match change {
        0 => card[at] ^= 1 << random.below(8),
        1 => card[at] = random.of(&EDGES),
        2 => card[at] = card[at].wrapping_add(random.of(&[1, 255])),
        3 => card.insert(at, random.of(&EDGES)),
        4 => drop(card.drain(at..end)),
        5 => drop(card.remove(at)),
        6 => card.splice(at..at, card[at..end].to_vec()).for_each(drop),
        7 => card.truncate(at),
        8 => card.push(random.of(&EDGES)),
        9 => card.swap(at, end - 1),
        10 => {
            let from = random.below(other.len());
            card.splice(at.., other[from..].iter().copied()).for_each(drop);
        }
        11 => card.splice(at..end, other[..random.below(other.len())].iter().copied()).for_each(drop),
        12 => count(random, card, 1),
        13 => count(random, card, 6),
        _ => count(random, card, at),
    }
}

/// Another count of four bytes: far off, or one more or less.
fn count(random: &mut Random, card: &mut [u8], at: usize) {
    let Some(bytes) = card.get_mut(at..at + 4) else { return };
    let old = u32::from_le_bytes([bytes[0], bytes[1], bytes[2], bytes[3]]);
    let new = match random.below(4) {
        0 => old.wrapping_add(1),
        1 => old.wrapping_sub(1),
        2 => old.swap_bytes(),
        _ => random.of(&COUNTS),
    };
    bytes.copy_from_slice(&new.to_le_bytes());
}

/// Bytes by chance, most with the front of a card.
fn random_bytes(random: &mut Random) -> Vec<u8> {
    let mut bytes: Vec<u8> = match random.below(4) {
        0 => Vec::new(),
        1 => vec![1],
        _ => vec![1, 1, 0, 0, 0, 0, 1, 0, 0, 0],
    };
    for _ in 0..random.below(40) {
        let byte = if random.one_in(2) { random.of(&EDGES) } else { random.next() as u8 };
        bytes.push(byte);
    }
    bytes
}
