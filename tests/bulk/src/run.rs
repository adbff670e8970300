//! Runs texts through the comparison, counts them, and cuts down and prints those that differ.

use crate::compare::{Checked, Comparison, LaterBars, Tally, WholeBars, shortened};
use crate::library::{BAR, Lent, NOTE};
use crate::random::Random;
use crate::walk::Needs;
use std::time::{Duration, Instant};

/// As many faults are shown of a section.
const FAULTS: u64 = 10;
/// A text that differs is cut down for at most this time.
const CUTTING: Duration = Duration::from_secs(10);

pub struct Run {
    comparison: Comparison,
    random: Random,
}

impl Run {
    /// Leaves texts out that have an `=` token, or close a group, beam or figure in a later bar.
    pub fn new(seed: u64) -> Self {
        Self::with(WholeBars::LeftOut, LaterBars::LeftOut, seed)
    }

    pub fn with(whole_bars: WholeBars, later_bars: LaterBars, seed: u64) -> Self {
        Self {
            comparison: Comparison::new(whole_bars, later_bars),
            random: Random::new(seed),
        }
    }

    /// Compares a text with cells lent by chance: mostly enough, some too few, some broken records.
    pub fn text(&mut self, text: &[u8]) {
        let prepared = self.comparison.prepare(text);
        let lent = lent_by_chance(&mut self.random, self.comparison.needs());
        let checked = self.called(text, lent, prepared);
        self.settle(text, lent, checked);
    }

    /// Compares a text with each of the cells that `lents` makes of its needs.
    pub fn text_with(&mut self, text: &[u8], lents: impl Fn(Needs) -> Vec<Lent>) {
        let prepared = self.comparison.prepare(text);
        let needs = self.comparison.needs();
        for lent in lents(needs) {
            let checked = self.called(text, lent, prepared.clone());
            if checked.is_err() {
                return self.settle(text, lent, checked);
            }
        }
    }

    /// Calls the library unless the text is left out.
    fn called(&mut self, text: &[u8], lent: Lent, prepared: Result<bool, String>) -> Checked {
        if prepared? {
            self.comparison.call(text, lent)?;
        }
        Ok(())
    }

    pub fn tally(&self) -> Tally {
        self.comparison.tally
    }

    /// Whether as many faults were found as are shown.
    pub fn full(&self) -> bool {
        self.comparison.tally.faults >= FAULTS
    }

    fn settle(&mut self, text: &[u8], lent: Lent, checked: Checked) {
        if let Err(first) = checked {
            let kept = self.comparison.tally;
            self.show(text, lent, &first);
            self.comparison.tally = kept;
            self.comparison.tally.faults += 1;
        }
    }

    fn show(&mut self, text: &[u8], lent: Lent, first: &str) {
        let small = self.smallest(text, lent);
        let what = self.differs(&small, lent).err();
        let what = what.unwrap_or_else(|| "not seen again; as found: ".to_string() + first);
        println!("FAULT \"{}\" ({} bytes)", shortened(&small), small.len());
        println!("  lent {lent:?}");
        println!("  {what}");
        println!("  {}", self.comparison.answers(&small, lent));
    }

    fn differs(&mut self, text: &[u8], lent: Lent) -> Checked {
        let prepared = self.comparison.prepare(text);
        self.called(text, lent, prepared)
    }

    /// Leaves parts out while the text still differs and there is time.
    fn smallest(&mut self, text: &[u8], lent: Lent) -> Vec<u8> {
        let begun = Instant::now();
        let mut small = text.to_vec();
        let mut span = small.len().div_ceil(2);
        while span > 0 {
            let mut at = 0;
            while at < small.len() {
                if begun.elapsed() > CUTTING {
                    return small;
                }
                let end = (at + span).min(small.len());
                let shorter = [&small[..at], &small[end..]].concat();
                if self.differs(&shorter, lent).is_err() {
                    small = shorter;
                } else {
                    at += span;
                }
            }
            span /= 2;
        }
        small
    }
}

/// Exactly what is needed, more, or too little; broken records too, and now and then too few diagnostic cells.
fn lent_by_chance(random: &mut Random, needs: Needs) -> Lent {
    let kind = random.below(100);
    let mut words = |records: usize, size: usize| {
        let records = match kind {
            0..15 => records.saturating_sub([0, 0, 1, 1, 2, 4][random.below(6)]),
            15..50 => records + 1 + random.below(8),
            _ => records,
        };
        let broken = if random.percent(50) {
            random.below(size)
        } else {
            0
        };
        records * size + broken
    };
    let (notes, bars, figure) = (
        words(needs.notes, NOTE),
        words(needs.bars, BAR),
        words(needs.figure, NOTE),
    );
    let diagnostics = match random.below(1_000) {
        0 => random.below(1_024),
        1 => 1_023,
        2..12 => 1_025 + random.below(100),
        _ => 1_024,
    };
    Lent {
        notes,
        bars,
        figure,
        diagnostics,
    }
}
