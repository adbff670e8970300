//! The library behind its C interface, declared here from the request's words and include/pae.h. The lent cells stand
//! between guards and are poisoned before each call, so that a cell not written is seen.

use crate::model::{BAR_WORDS, NOTE_WORDS, Read, Records, Written};

#[repr(C)]
#[derive(Clone, Copy)]
struct CardWritten {
    number: u32,
    length: u32,
}

#[repr(C)]
#[derive(Clone, Copy)]
struct CardRead {
    number: u32,
    notes: u32,
    bars: u32,
}

#[repr(C)]
#[derive(Clone, Copy)]
struct Reading {
    number: u32,
    place: u32,
    notes: u32,
    bars: u32,
    diagnostics: u32,
}

#[link(name = "pae", kind = "static")]
unsafe extern "C" {
    fn pae_write_card(
        notes: *const i32,
        notes_len: usize,
        bars: *const i32,
        bars_len: usize,
        card: *mut u8,
        card_len: usize,
    ) -> CardWritten;

    fn pae_read_card(
        card: *const u8,
        card_len: usize,
        notes: *mut i32,
        notes_len: usize,
        bars: *mut i32,
        bars_len: usize,
    ) -> CardRead;

    // A diagnostic is six words of 32 bits without padding, so its cells are lent as words.
    fn pae_read(
        text: *const u8,
        text_len: usize,
        notes: *mut i32,
        notes_len: usize,
        bars: *mut i32,
        bars_len: usize,
        figure: *mut i32,
        figure_len: usize,
        diagnostics: *mut i32,
        diagnostics_len: usize,
    ) -> Reading;
}

/// The call alone: number and length.
pub fn write_card(notes: &[i32], bars: &[i32], card: &mut [u8]) -> (u32, u32) {
    let written = unsafe {
        pae_write_card(notes.as_ptr(), notes.len(), bars.as_ptr(), bars.len(), card.as_mut_ptr(), card.len())
    };
    (written.number, written.length)
}

/// The call alone: number, notes and bars.
pub fn read_card(card: &[u8], notes: &mut [i32], bars: &mut [i32]) -> (u32, u32, u32) {
    let read = unsafe {
        pae_read_card(card.as_ptr(), card.len(), notes.as_mut_ptr(), notes.len(), bars.as_mut_ptr(), bars.len())
    };
    (read.number, read.notes, read.bars)
}

const GUARD: usize = 16;
const POISONS: [i32; 4] = [-0x2152_4111, 0x0101_0101, -1, 0x2525_2525];
const CELLS: usize = 1024;

/// Lent cells between guards, kept from call to call.
#[derive(Default)]
struct Buffer<T> {
    cells: Vec<T>,
}

impl<T: Copy + Default + PartialEq> Buffer<T> {
    /// Poisons so many lent cells and sets the guards.
    fn lend(&mut self, length: usize, poison: T, guard: T) -> &mut [T] {
        if self.cells.len() < length + 2 * GUARD {
            self.cells.resize(length + 2 * GUARD, T::default());
        }
        self.cells[..GUARD].fill(guard);
        self.cells[GUARD + length..length + 2 * GUARD].fill(guard);
        let lent = &mut self.cells[GUARD..GUARD + length];
        lent.fill(poison);
        lent
    }

    fn lent(&self, length: usize) -> Vec<T> {
        self.cells[GUARD..GUARD + length].to_vec()
    }

    fn guarded(&self, length: usize, guard: T) -> bool {
        let behind = &self.cells[GUARD + length..length + 2 * GUARD];
        self.cells[..GUARD].iter().chain(behind).all(|cell| *cell == guard)
    }
}

/// Cells to be read. What an earlier call left stands behind them, so that a cut card or record goes on there.
#[derive(Default)]
struct Source<T> {
    cells: Vec<T>,
}

impl<T: Copy + Default + PartialEq> Source<T> {
    fn hold(&mut self, cells: &[T]) -> &[T] {
        if self.cells.len() < cells.len() + GUARD {
            self.cells.resize(cells.len() + GUARD, T::default());
        }
        self.cells[..cells.len()].copy_from_slice(cells);
        &self.cells[..cells.len()]
    }

    fn holds(&self, cells: &[T]) -> bool {
        self.cells[..cells.len()] == *cells
    }
}

/// The library with its buffers.
#[derive(Default)]
pub struct Library {
    card: Buffer<u8>,
    notes: Buffer<i32>,
    bars: Buffer<i32>,
    card_source: Source<u8>,
    note_source: Source<i32>,
    bar_source: Source<i32>,
    calls: usize,
}

impl Library {
    fn poison(&mut self) -> i32 {
        self.calls += 1;
        POISONS[self.calls % POISONS.len()]
    }

    /// Writes a card into so many lent bytes. None if a guard or the records were written.
    pub fn write(&mut self, notes: &[i32], bars: &[i32], lent: usize) -> Option<Written> {
        let poison = self.poison() as u8;
        let card = self.card.lend(lent, poison, !poison);
        let (number, length) = write_card(self.note_source.hold(notes), self.bar_source.hold(bars), card);
        let whole = self.card.guarded(lent, !poison) && self.note_source.holds(notes) && self.bar_source.holds(bars);
        whole.then(|| Written { number, length, cells: self.card.lent(lent) })
    }

    /// Reads a card into so many lent words. None if a guard or the card was written.
    pub fn read(&mut self, card: &[u8], notes: usize, bars: usize) -> Option<Read> {
        let poison = self.poison();
        let note_words = self.notes.lend(notes, poison, !poison);
        let bar_words = self.bars.lend(bars, poison, !poison);
        let (number, note_count, bar_count) = read_card(self.card_source.hold(card), note_words, bar_words);
        let whole =
            self.notes.guarded(notes, !poison) && self.bars.guarded(bars, !poison) && self.card_source.holds(card);
        whole.then(|| Read {
            number,
            notes: note_count,
            bars: bar_count,
            cells: Records { notes: self.notes.lent(notes), bars: self.bars.lent(bars) },
        })
    }
}

/// The reader of texts, with room for so many notes and as many bars.
pub struct Texts {
    notes: Vec<i32>,
    bars: Vec<i32>,
    figure: Vec<i32>,
    diagnostics: Vec<i32>,
}

impl Texts {
    pub fn new(notes: usize) -> Texts {
        let words = vec![0; notes * NOTE_WORDS];
        Texts { notes: words.clone(), bars: vec![0; notes * BAR_WORDS], figure: words, diagnostics: vec![0; 6 * CELLS] }
    }

    /// The records of an accepted text.
    pub fn read(&mut self, text: &[u8]) -> Option<Records> {
        let reading = unsafe {
            pae_read(
                text.as_ptr(),
                text.len(),
                self.notes.as_mut_ptr(),
                self.notes.len(),
                self.bars.as_mut_ptr(),
                self.bars.len(),
                self.figure.as_mut_ptr(),
                self.figure.len(),
                self.diagnostics.as_mut_ptr(),
                CELLS,
            )
        };
        let notes = self.notes[..reading.notes as usize * NOTE_WORDS].to_vec();
        let bars = self.bars[..reading.bars as usize * BAR_WORDS].to_vec();
        (reading.number == 0).then_some(Records { notes, bars })
    }
}
