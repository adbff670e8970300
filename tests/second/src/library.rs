//! The library behind its C interface, and the comparison of every lent cell with the model's answer. The interface is
//! declared here from include/pae.h, and nothing is shared with tests/bulk: a slip there is none here.

use crate::model::{Answer, BAR_WORDS, DIAGNOSTIC_WORDS, Lent, NOTE_WORDS, read};

/// Five unsigned words, as PaeReading.
#[repr(C)]
#[derive(Clone, Copy)]
struct Reading {
    number: u32,
    place: u32,
    notes: u32,
    bars: u32,
    diagnostics: u32,
}

// A diagnostic is six words of 32 bits without padding, so its cells are lent as words.
#[link(name = "pae", kind = "static")]
unsafe extern "C" {
    fn pae_read(
        text: *const u8,
        text_len: usize,
        notes: *mut i32,
        notes_len: usize,
        bars: *mut i32,
        bars_len: usize,
        figure: *mut i32,
        figure_len: usize,
        diagnostics: *mut i32,
        diagnostics_len: usize,
    ) -> Reading;
}

const GUARD: usize = 16;
const GUARD_WORD: i32 = 0x6b6b_6b6b;
const POISON: i32 = -0x2152_4111;

/// Lent words between guard words, kept from call to call.
#[derive(Default)]
struct Buffer {
    words: Vec<i32>,
}

impl Buffer {
    /// Poisons the lent words and sets the guards.
    fn lend(&mut self, length: usize) -> *mut i32 {
        if self.words.len() < length + 2 * GUARD {
            self.words.resize(length + 2 * GUARD, 0);
        }
        self.words[..GUARD].fill(GUARD_WORD);
        self.words[GUARD..GUARD + length].fill(POISON);
        self.words[GUARD + length..length + 2 * GUARD].fill(GUARD_WORD);
        self.words[GUARD..].as_mut_ptr()
    }

    fn lent(&self, length: usize) -> &[i32] {
        &self.words[GUARD..GUARD + length]
    }

    fn guarded(&self, length: usize) -> bool {
        let after = &self.words[GUARD + length..length + 2 * GUARD];
        self.words[..GUARD].iter().chain(after).all(|word| *word == GUARD_WORD)
    }
}

/// The library with its buffers.
#[derive(Default)]
pub struct Library {
    text: Vec<u8>,
    notes: Buffer,
    bars: Buffer,
    figure: Buffer,
    diagnostics: Buffer,
    pub calls: u64,
}

impl Library {
    fn call(&mut self, text: &[u8], lent: Lent) -> Reading {
        self.calls += 1;
        // the pointer to an empty text mustn't be null
        self.text.clear();
        self.text.extend_from_slice(text);
        self.text.push(0);
        unsafe {
            pae_read(
                self.text.as_ptr(),
                text.len(),
                self.notes.lend(lent.notes),
                lent.notes,
                self.bars.lend(lent.bars),
                lent.bars,
                self.figure.lend(lent.figure),
                lent.figure,
                self.diagnostics.lend(lent.diagnostics * DIAGNOSTIC_WORDS),
                lent.diagnostics,
            )
        }
    }

    /// Calls the library and compares every lent cell with the answer. The differences in words; none if equal.
    pub fn compare(&mut self, text: &[u8], lent: Lent, answer: &Answer) -> Vec<String> {
        let reading = self.call(text, lent);
        let mut found = Vec::new();
        let heads = [
            ("number", reading.number, answer.number),
            ("place", reading.place, answer.place),
            ("notes", reading.notes, answer.notes.len() as u32),
            ("bars", reading.bars, answer.bars.len() as u32),
            ("diagnostics", reading.diagnostics, answer.diagnostics.len() as u32),
        ];
        for (name, library, model) in heads {
            if library != model {
                found.push(format!("{name}: library {library}, model {model}"));
            }
        }
        cells("note", self.notes.lent(lent.notes), &answer.notes, &mut found);
        cells("bar", self.bars.lent(lent.bars), &answer.bars, &mut found);
        cells::<NOTE_WORDS>("figure", self.figure.lent(lent.figure), &[], &mut found);
        cells(
            "diagnostic",
            self.diagnostics.lent(lent.diagnostics * DIAGNOSTIC_WORDS),
            &answer.diagnostics,
            &mut found,
        );
        let whole = self.notes.guarded(lent.notes)
            && self.bars.guarded(lent.bars)
            && self.figure.guarded(lent.figure)
            && self.diagnostics.guarded(lent.diagnostics * DIAGNOSTIC_WORDS)
            && self.text[..text.len()] == *text;
        if !whole {
            found.push("a guard word or the text was written".to_string());
        }
        found
    }

    pub fn differs(&mut self, text: &[u8], lent: Lent) -> bool {
        let answer = read(text, lent);
        !self.compare(text, lent, &answer).is_empty()
    }

    /// The library's answer in lines.
    pub fn answer(&mut self, text: &[u8], lent: Lent) -> String {
        let reading = self.call(text, lent);
        let mut lines = format!("  number {} place {}\n", reading.number, reading.place);
        let notes = self.notes.lent(lent.notes).chunks_exact(NOTE_WORDS).take(reading.notes as usize);
        let bars = self.bars.lent(lent.bars).chunks_exact(BAR_WORDS).take(reading.bars as usize);
        let cells = self.diagnostics.lent(lent.diagnostics * DIAGNOSTIC_WORDS).chunks_exact(DIAGNOSTIC_WORDS);
        notes.for_each(|words| lines += &note_line(words));
        bars.for_each(|words| lines += &format!("  bar {words:?}\n"));
        cells.take(reading.diagnostics as usize).for_each(|words| lines += &format!("  diagnostic {words:?}\n"));
        lines
    }
}

/// The model's answer in lines.
pub fn model_answer(answer: &Answer) -> String {
    let mut lines = format!("  number {} place {}\n", answer.number, answer.place);
    answer.notes.iter().for_each(|words| lines += &note_line(words));
    answer.bars.iter().for_each(|words| lines += &format!("  bar {words:?}\n"));
    answer.diagnostics.iter().for_each(|words| lines += &format!("  diagnostic {words:?}\n"));
    lines
}

/// A note's words, its unused pitches left out.
fn note_line(words: &[i32]) -> String {
    let used = 12 + 4 * words[10].clamp(0, 8) as usize;
    format!("  note {:?} {:?}\n", &words[..12], &words[12..used])
}

/// "the first records stand as counted; all other cells, the whole figure buffer included, are 0"
fn cells<const WORDS: usize>(name: &str, lent: &[i32], records: &[[i32; WORDS]], found: &mut Vec<String>) {
    let stored = records.as_flattened();
    if stored.len() > lent.len() {
        found.push(format!("{name}: the model stores more than is lent"));
        return;
    }
    if lent[..stored.len()] == *stored && lent[stored.len()..].iter().all(|word| *word == 0) {
        return;
    }
    for (i, word) in lent.iter().enumerate() {
        let model = stored.get(i).copied().unwrap_or(0);
        if *word != model {
            found.push(format!("{name} {} word {}: library {word}, model {model}", i / WORDS, i % WORDS));
            return;
        }
    }
}
