//! Cards built field by field, one of them odd: out of its range, or a bit map that doesn't fit.

use crate::random::Random;

struct Loose<'a> {
    random: &'a mut Random,
    /// Fields until the odd one.
    left: usize,
    card: Vec<u8>,
}

impl Loose<'_> {
    fn odd(&mut self) -> bool {
        self.left = self.left.wrapping_sub(1);
        self.left == 0
    }

    /// A byte of the range, or an odd one.
    fn field(&mut self, low: u8, high: u8) -> u8 {
        let byte = if self.odd() {
            self.random.of(&[low.wrapping_sub(1), high.wrapping_add(1), 0, 255, 128])
        } else {
            self.random.range(low as i32, high as i32) as u8
        };
        self.card.push(byte);
        byte
    }

    fn four(&mut self, count: u32) {
        let count = if self.odd() {
            self.random.of(&[0, count + 1, count.wrapping_sub(1), count << 8, count << 24, count + 65_536, u32::MAX])
        } else {
            count
        };
        self.card.extend(count.to_le_bytes());
    }

    fn place(&mut self) {
        let place = if self.odd() { 0 } else { self.random.range(1, 65_535) as u16 };
        self.card.extend(place.to_le_bytes());
    }

    fn bar(&mut self, map: u8, notes: u32) {
        self.card.push(map);
        self.four(notes);
        if map & 1 != 0 {
            self.field(1, 8);
        }
        if map & 2 != 0 {
            self.field(0, 14);
        }
        if map & 4 != 0 {
            self.field(1, 255);
            let denominator = 1 << self.random.below(8);
            self.field(denominator, denominator);
            self.field(0, 2);
        }
        if map & 8 != 0 {
            self.field(1, 3);
        }
        if map & 16 != 0 {
            self.field(1, 3);
        }
    }

    /// A note with the fields of its map. Without a fitting kind it is odd.
    fn note(&mut self, map: u8) {
        self.card.push(map);
        self.place();
        self.field(0, 39);
        if map & 1 != 0 {
            let pitched = map & 32 != 0;
            let kind = self.random.of(if pitched { &[2, 3] } else { &[1, 4] });
            self.field(kind, kind);
        }
        if map & 2 != 0 {
            self.field(1, 3);
        }
        if map & 4 != 0 {
            self.field(1, 3);
        }
        if map & 8 != 0 {
            self.field(3, 255);
        }
        if map & 16 != 0 {
            let count = self.field(1, 8);
            self.field(0, ((1_u32 << count.min(8)) - 1) as u8);
        }
        if map & 32 != 0 {
            let count = self.field(1, 8);
            for _ in 0..count.min(8) {
                self.place();
                self.field(0, 69);
                self.field(0, 4);
            }
        }
    }
}

/// A card of some bars with some notes. One field is odd, if there are as many as are drawn.
pub fn card(random: &mut Random) -> Vec<u8> {
    let left = 1 + random.below(60);
    let mut loose = Loose { random, left, card: Vec::new() };
    let bars = if loose.odd() { 0 } else { 1 + loose.random.small(3) };
    loose.field(1, 1);
    loose.four(bars as u32);
    for _ in 0..bars {
        let map = loose.random.below(32) as u8;
        let map = if loose.odd() { map | 32 << loose.random.below(3) } else { map };
        let notes = if loose.odd() { 0 } else { 1 + loose.random.small(3) };
        loose.bar(map, notes as u32);
        for _ in 0..notes {
            // a pitched note or a rest
            let map = loose.random.below(32) as u8;
            let map = if map & 1 == 0 || loose.random.one_in(2) { map | 32 } else { map };
            let map = if loose.odd() { map ^ 1 << loose.random.below(8) } else { map };
            loose.note(map);
        }
    }
    loose.card
}

/// A card of one bar with one note, with these bit maps and otherwise sound fields.
pub fn mapped(random: &mut Random, bar: u8, note: u8) -> Vec<u8> {
    let mut loose = Loose { random, left: usize::MAX, card: vec![1, 1, 0, 0, 0] };
    loose.bar(bar, 1);
    loose.note(note);
    loose.card
}
