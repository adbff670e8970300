//! The library under test, and the cells that it is lent.

/// A note has 44 words, a bar 10, a diagnostic 6.
pub const NOTE: usize = 44;
pub const BAR: usize = 10;
pub const DIAGNOSTIC: usize = 6;
/// As many diagnostics are stored at most, and as many cells must be lent at least.
pub const DIAGNOSTICS: usize = 1_024;

#[repr(C)]
#[derive(Clone, Copy, Debug, Default, PartialEq, Eq)]
pub struct Reading {
    pub number: u32,
    pub place: u32,
    pub notes: u32,
    pub bars: u32,
    pub diagnostics: u32,
}

/// A cell of the lent list of diagnostics.
#[repr(C)]
pub struct Cell([i32; DIAGNOSTIC]);

/// Declares a library's function: pointer and length of the text, the notes, the bars, the figure and the diagnostics.
macro_rules! declared {
    ($library:literal, $function:ident) => {
        #[link(name = $library, kind = "static")]
        unsafe extern "C" {
            fn $function(
                text: *const u8,
                text_len: usize,
                notes: *mut i32,
                notes_len: usize,
                bars: *mut i32,
                bars_len: usize,
                figure: *mut i32,
                figure_len: usize,
                diagnostics: *mut Cell,
                diagnostics_len: usize,
            ) -> Reading;
        }
    };
}
declared!("pae", pae_read);
#[cfg(beside)]
declared!("pae_beside", pae_read_beside);

/// Such a function.
#[rustfmt::skip]
pub type Read = unsafe extern "C" fn(
    *const u8, usize, *mut i32, usize, *mut i32, usize, *mut i32, usize, *mut Cell, usize,
) -> Reading;

/// The function of the library beside the tested one, if there is one.
#[cfg(beside)]
pub const BESIDE: Option<Read> = Some(pae_read_beside);
#[cfg(not(beside))]
pub const BESIDE: Option<Read> = None;

/// What is lent: words for notes, bars and figure, and diagnostic cells.
#[derive(Clone, Copy, Debug, PartialEq, Eq)]
pub struct Lent {
    pub notes: usize,
    pub bars: usize,
    pub figure: usize,
    pub diagnostics: usize,
}

/// Words before and behind the lent part, which must stay as they are.
const GUARD: usize = 64;

/// One lent buffer between its guards.
#[derive(Default)]
struct Buffer {
    words: Vec<i32>,
    lent: usize,
    poison: i32,
}

impl Buffer {
    fn lend(&mut self, lent: usize, poison: i32) {
        let size = lent + 2 * GUARD;
        if self.words.len() < size {
            self.words.resize(size, 0);
        }
        self.words[..size].fill(poison);
        self.lent = lent;
        self.poison = poison;
    }

    fn pointer(&mut self) -> *mut i32 {
        self.words[GUARD..].as_mut_ptr()
    }

    fn lent(&self) -> &[i32] {
        &self.words[GUARD..GUARD + self.lent]
    }

    fn guarded(&self) -> bool {
        let behind = GUARD + self.lent;
        let untouched = |words: &[i32]| words.iter().all(|word| *word == self.poison);
        untouched(&self.words[..GUARD]) && untouched(&self.words[behind..behind + GUARD])
    }
}

/// The four lent buffers, full of garbage before each call, and who reads into them.
pub struct Cells {
    read: Read,
    notes: Buffer,
    bars: Buffer,
    figure: Buffer,
    diagnostics: Buffer,
    calls: u32,
}

impl Default for Cells {
    fn default() -> Self {
        Self::of(pae_read)
    }
}

impl Cells {
    pub fn of(read: Read) -> Self {
        Self {
            read,
            notes: Buffer::default(),
            bars: Buffer::default(),
            figure: Buffer::default(),
            diagnostics: Buffer::default(),
            calls: 0,
        }
    }

    /// Poisons all cells, each call with another word, and reads the text into them.
    pub fn read(&mut self, text: &[u8], lent: Lent) -> Reading {
        self.calls = self.calls.wrapping_add(1);
        let poison = (self.calls.wrapping_mul(0x9e37_79b9) | 1) as i32;
        self.notes.lend(lent.notes, poison);
        self.bars.lend(lent.bars, poison);
        self.figure.lend(lent.figure, poison);
        self.diagnostics.lend(lent.diagnostics * DIAGNOSTIC, poison);
        self.reread(text, lent)
    }

    /// Reads the text into cells as an earlier `read` left them, at most as many as it was lent.
    pub fn reread(&mut self, text: &[u8], lent: Lent) -> Reading {
        assert!(lent.notes <= self.notes.lent && lent.bars <= self.bars.lent);
        assert!(lent.figure <= self.figure.lent);
        assert!(lent.diagnostics * DIAGNOSTIC <= self.diagnostics.lent);
        // Each pointer is to at least as many words as are told beside it.
        unsafe {
            (self.read)(
                text.as_ptr(),
                text.len(),
                self.notes.pointer(),
                lent.notes,
                self.bars.pointer(),
                lent.bars,
                self.figure.pointer(),
                lent.figure,
                self.diagnostics.pointer().cast(),
                lent.diagnostics,
            )
        }
    }

    pub fn guarded(&self) -> bool {
        [&self.notes, &self.bars, &self.figure, &self.diagnostics]
            .iter()
            .all(|buffer| buffer.guarded())
    }

    pub fn notes(&self) -> &[i32] {
        self.notes.lent()
    }

    pub fn bars(&self) -> &[i32] {
        self.bars.lent()
    }

    pub fn figure(&self) -> &[i32] {
        self.figure.lent()
    }

    pub fn diagnostics(&self) -> &[i32] {
        self.diagnostics.lent()
    }
}

/// Whether all words are 0.
pub fn all_zero(words: &[i32]) -> bool {
    words
        .chunks(64)
        .all(|chunk| chunk.iter().fold(0, |all, word| all | word) == 0)
}
