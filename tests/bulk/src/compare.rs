//! One call of the library held against what is due: the original's answer, the places and refusals that the specification
//! adds, and every lent cell.

use crate::library::{BAR, Cells, DIAGNOSTIC, DIAGNOSTICS, Lent, NOTE, Reading, all_zero};
use crate::original::{Found, Original, Outcome, PITCH, PITCHES, ROOM, found};
use crate::taken_out::{due_at_closing, taken_out};
use crate::walk::{Needs, Refusal, TEXT, Walk, data_in, field_in, trimmed};
use crate::written::Written;
use acorde_io::Diagnostic;

/// Words of a note record, kinds of notes, and the place kind of the data.
const KIND: usize = 1;
const DURATION: usize = 2;
const DOTS: usize = 3;
const BEAM: usize = 5;
const TUPLET: usize = 6;
const MARK_COUNT: usize = 8;
const PITCH_COUNT: usize = 10;
const BAR_NUMBER: usize = 11;
const REST: i32 = 1;
const WHOLE_BARS: i32 = 4;
const DATA: i32 = 3;

/// What was compared.
#[derive(Clone, Copy, Default)]
pub struct Tally {
    pub texts: u64,
    /// The texts that close a group, beam or figure in a later bar.
    pub later: u64,
    /// Texts that weren't compared, for an `=` token; other ones, for a closing in a later bar.
    pub left_out_whole_bars: u64,
    pub left_out_later: u64,
    pub calls: u64,
    /// By number of the refusal; 0: accepted.
    pub numbers: [u64; 14],
    /// By number of the diagnostic.
    pub diagnostics: [u64; 21],
    pub notes: u64,
    /// The notes that are rests of whole bars.
    pub whole_bars: u64,
    pub bars: u64,
    pub faults: u64,
}

/// What becomes of texts with an `=` token, which the original reads otherwise.
#[derive(Clone, Copy, PartialEq, Eq)]
pub enum WholeBars {
    /// They are left out.
    LeftOut,
    /// The original reads them written out. Left out are those where a tie waits at an `=` token, or the pattern there
    /// has more than one length: the rest would cancel the tie, and step the pattern.
    WrittenOut,
    /// The original reads them as they are: without a meter, it fills an empty bar with one rest for an `=`, and leaves
    /// tie and pattern alone. Left out are those with a meter, or with an `=` token in a bar that isn't empty.
    Filled,
}

/// What becomes of texts that close a group, beam or figure in a later bar, which the original reads otherwise.
#[derive(Clone, Copy, PartialEq, Eq)]
pub enum LaterBars {
    /// They are left out.
    LeftOut,
    /// The original reads the text with those taken out.
    TakenOut,
}

pub struct Comparison {
    original: Original,
    walk: Walk,
    cells: Cells,
    whole_bars: WholeBars,
    later_bars: LaterBars,
    written: Option<Written>,
    /// What the original reads where something was taken out.
    taken_out: Option<String>,
    pub tally: Tally,
}

/// What differs.
pub type Checked = Result<(), String>;

impl Comparison {
    pub fn new(whole_bars: WholeBars, later_bars: LaterBars) -> Self {
        Self {
            original: Original::default(),
            walk: Walk::default(),
            cells: Cells::default(),
            whole_bars,
            later_bars,
            written: None,
            taken_out: None,
            tally: Tally::default(),
        }
    }

    /// Reads the text with the original and works out what is due; where both can be held together they must agree.
    /// Tells whether the text is to be compared.
    pub fn prepare(&mut self, text: &[u8]) -> Result<bool, String> {
        self.written = Written::of(text);
        self.taken_out = None;
        if !self.followed(text) {
            self.tally.left_out_whole_bars += 1;
            return Ok(false);
        }
        if !self.walk.later.is_empty() {
            self.take_out(text);
            if self.taken_out.is_none() {
                self.tally.left_out_later += 1;
                return Ok(false);
            }
            self.tally.later += 1;
        }
        self.tally.texts += 1;
        self.ask(text);
        if !self.agreed() {
            return Err("the original and the harness's own walk differ".into());
        }
        if self.walk.stop.is_none() && self.original.outcome == Outcome::Accepted {
            self.enter_places();
        }
        Ok(true)
    }

    /// Follows the text, or the line written out; whether it isn't left out.
    fn followed(&mut self, text: &[u8]) -> bool {
        let Some(written) = &self.written else {
            self.walk.follow(text);
            return true;
        };
        if self.whole_bars == WholeBars::LeftOut {
            return false;
        }
        self.walk.follow_in(written.data());
        let (against, metered) = match self.whole_bars {
            WholeBars::Filled => (&self.walk.behind, written.metered),
            _ => (&self.walk.felt, false),
        };
        !metered && !against.iter().any(|place| written.is_whole_bars(*place))
    }

    /// The line written out, if the original is to read it.
    fn written_out(&self) -> Option<&Written> {
        let written = self.written.as_ref();
        written.filter(|_| self.whole_bars == WholeBars::WrittenOut)
    }

    /// Takes out what is closed in a later bar, unless such texts are left out.
    fn take_out(&mut self, text: &[u8]) {
        let later = &self.walk.later;
        self.taken_out = match (self.later_bars, self.written_out()) {
            (LaterBars::LeftOut, _) => None,
            (_, Some(written)) => taken_out(written.data(), later, |place| place),
            (_, None) => {
                let data = data_in(text).ok();
                data.and_then(|data| taken_out(data, later, |place| self.place(place)))
            }
        };
    }

    /// What the original reads in place of the text, if it does.
    fn rewritten(&self) -> Option<&str> {
        let written = self.written_out().map(|written| written.data().text);
        self.taken_out.as_deref().or(written)
    }

    /// Has the original read the text, or what stands in its place.
    fn ask(&mut self, text: &[u8]) {
        let mut original = std::mem::take(&mut self.original);
        match self.rewritten().or(str::from_utf8(text).ok()) {
            Some(text) => original.read(text),
            None => original = Original::default(),
        }
        self.original = original;
    }

    /// The place in the text of a place in what was followed.
    fn place(&self, place: u32) -> u32 {
        let written = self.written.as_ref();
        written.map_or(place, |written| written.place(place))
    }

    /// The records that the prepared text needs.
    pub fn needs(&self) -> Needs {
        self.walk.needs()
    }

    /// Calls the library on the prepared text and compares its whole answer.
    pub fn call(&mut self, text: &[u8], lent: Lent) -> Checked {
        self.tally.calls += 1;
        let reading = self.cells.read(text, lent);
        if !self.cells.guarded() {
            return Err("a word outside the lent cells was written".into());
        }
        let due = self.walk.refusal(lent);
        let refused = |refusal: Refusal| Reading {
            number: refusal.number,
            place: self.place(refusal.place),
            ..Reading::default()
        };
        let due = due.map_or_else(|| self.accepted(), refused);
        if reading != due {
            return Err(format!("the result differs: due is {due:?}"));
        }
        if !self.justified(text, lent, reading.number) {
            return Err("the original's answer doesn't bear the result out".into());
        }
        self.tally.numbers[reading.number as usize] += 1;
        if reading.number == 0 {
            self.tally.notes += u64::from(reading.notes);
            self.tally.whole_bars += whole_bars_in(self.cells.notes());
            self.tally.bars += u64::from(reading.bars);
            self.compare_cells(text)
        } else {
            self.expect_cleared()
        }
    }

    /// Both answers in words.
    pub fn answers(&mut self, text: &[u8], lent: Lent) -> String {
        let reading = self.cells.read(text, lent);
        let library = format!(
            "library:  {reading:?}{}{}{}{}",
            shown(" N", self.cells.notes(), NOTE),
            shown(" B", self.cells.bars(), BAR),
            shown(" F", self.cells.figure(), NOTE),
            shown(" D", self.cells.diagnostics(), DIAGNOSTIC),
        );
        let mut original = format!(
            "original: {:?}{}{}",
            self.original.outcome,
            shown(" N", &self.original.notes, NOTE),
            shown(" B", &self.original.bars, BAR),
        );
        for diagnostic in self.original.diagnostics.iter().take(SHOWN) {
            let due = found(diagnostic);
            original += &format!(
                " D{},{},{},{},{:?}",
                due.number, due.place_kind, due.place, due.value_kind, due.value
            );
        }
        let due = self.walk.refusal(lent);
        let rewritten = self.rewritten().map_or(String::new(), |text| {
            format!("\n  the original reads: \"{}\"", shortened(text.as_bytes()))
        });
        format!("{library}\n  {original}\n  due refusal: {due:?}{rewritten}")
    }

    fn accepted(&self) -> Reading {
        Reading {
            number: 0,
            place: 0,
            notes: self.original.note_count() as u32,
            bars: self.original.bar_count() as u32,
            diagnostics: self.original.diagnostics.len() as u32,
        }
    }

    /// Whether the original and the walk tell the same.
    fn agreed(&self) -> bool {
        let outcome = self.original.outcome;
        let too_many = outcome == Outcome::TooManyNotes;
        match self.walk.stop.map(|stop| stop.number) {
            Some(1 | 3) => true,
            Some(4 | 5) => outcome == Outcome::Empty,
            Some(7) => too_many,
            Some(9) => too_many || self.original.passes_pitches(),
            Some(10) => too_many || self.original.passes_marks(),
            Some(_) => false,
            None if self.walk.records.is_empty() => outcome == Outcome::Empty,
            None => outcome == Outcome::Accepted && self.same_sizes(),
        }
    }

    fn same_sizes(&self) -> bool {
        let sizes = &self.original.sizes;
        self.walk.needs().bars == self.original.bar_count()
            && self.walk.records.len() == sizes.len()
            && self
                .walk
                .records
                .iter()
                .zip(sizes)
                .all(|(record, size)| record.pitches == size.pitches && record.marks == size.marks)
    }

    /// Enters the added words into the original's records, and what a rest of whole bars has instead of the rest that
    /// the original has for it.
    fn enter_places(&mut self) {
        let mut notes = std::mem::take(&mut self.original.notes);
        let words = notes.chunks_exact_mut(NOTE);
        for (words, record) in words.zip(&self.walk.records) {
            words[0] = self.place(record.place) as i32;
            for (at, letter) in record.letters[..record.pitches].iter().enumerate() {
                words[PITCHES + PITCH * at] = self.place(*letter) as i32;
            }
            let written = self.written.as_ref();
            if written.is_some_and(|written| written.is_whole_bars(record.origin)) {
                words[KIND] += WHOLE_BARS - REST;
                words[DURATION] = 0;
                words[DOTS] = 0;
            }
        }
        self.original.notes = notes;
    }

    /// Whether the original's answer alone allows the number. It reads on where the library stops, and its notes, bars,
    /// pitches and marks only grow.
    fn justified(&self, text: &[u8], lent: Lent, number: u32) -> bool {
        let original = &self.original;
        let (notes, bars) = (original.note_count(), original.bar_count());
        let (note_room, bar_room) = (lent.notes / NOTE, lent.bars / BAR);
        let read_to = |reached: bool| reached || original.outcome == Outcome::TooManyNotes;
        match number {
            0 => {
                original.outcome == Outcome::Accepted
                    && notes <= note_room
                    && bars <= bar_room
                    && !original.passes_pitches()
                    && !original.passes_marks()
            }
            1 => text.len() > TEXT,
            2 => lent.diagnostics < DIAGNOSTICS,
            3 => str::from_utf8(text).is_err(),
            4 | 5 | 13 => original.outcome == Outcome::Empty,
            7 => original.outcome == Outcome::TooManyNotes,
            8 => read_to(notes > note_room),
            9 => read_to(original.passes_pitches()),
            10 => read_to(original.passes_marks()),
            11 => read_to(notes > lent.figure / NOTE),
            12 => read_to(bars > bar_room),
            _ => false,
        }
    }

    fn expect_cleared(&self) -> Checked {
        let cells = &self.cells;
        let all = [
            cells.notes(),
            cells.bars(),
            cells.figure(),
            cells.diagnostics(),
        ];
        if all.iter().all(|words| all_zero(words)) {
            Ok(())
        } else {
            Err("a cell isn't 0 after a refusal".into())
        }
    }

    fn compare_cells(&mut self, text: &[u8]) -> Checked {
        let text = str::from_utf8(text).map_err(|_| "malformed UTF-8 is accepted")?;
        same_records("note", self.cells.notes(), &self.original.notes, NOTE)?;
        same_records("bar", self.cells.bars(), &self.original.bars, BAR)?;
        if !all_zero(self.cells.figure()) {
            return Err("a cell of the figure isn't 0".into());
        }
        let (stored, behind) = self
            .cells
            .diagnostics()
            .split_at(self.original.diagnostics.len() * DIAGNOSTIC);
        if !all_zero(behind) {
            return Err("a cell behind the diagnostics isn't 0".into());
        }
        let written = self.written.as_ref();
        let starts = written.map_or(&self.walk.starts, |written| &written.starts);
        let words = stored.chunks_exact(DIAGNOSTIC);
        for (at, (words, diagnostic)) in words.zip(&self.original.diagnostics).enumerate() {
            let due = self.due(diagnostic);
            if !same_diagnostic(text, starts, words, &due) {
                return Err(format!("diagnostic {at} differs: {words:?}"));
            }
            self.tally.diagnostics[due.number as usize] += 1;
        }
        Ok(())
    }

    /// What is due for a diagnostic of the original.
    fn due<'a>(&self, diagnostic: &'a Diagnostic) -> Found<'a> {
        let mut due = found(diagnostic);
        if due.place_kind != DATA {
            return due;
        }
        if self.written_out().is_some() {
            due.place = self.place(due.place as u32) as i32;
        }
        let closing = &self.walk.later.closing;
        let at = closing.binary_search_by_key(&due.place, |(place, _)| self.place(*place) as i32);
        match at {
            Ok(at) => due_at_closing(closing[at].1, due),
            Err(_) => due,
        }
    }
}

/// Records as counted, 0 behind them.
fn same_records(name: &str, cells: &[i32], due: &[i32], size: usize) -> Checked {
    let (stored, behind) = cells.split_at(due.len());
    if stored != due {
        let differing = stored.iter().zip(due).position(|(cell, due)| cell != due);
        let word = differing.unwrap_or(0);
        let (record, at) = (word / size, word % size);
        return Err(format!(
            "{name} {record}, word {at}: {} for {}",
            stored[word], due[word]
        ));
    }
    if !all_zero(behind) {
        return Err(format!("a cell behind the {name} records isn't 0"));
    }
    Ok(())
}

fn same_diagnostic(text: &str, starts: &[usize], words: &[i32], due: &Found) -> bool {
    words[..4] == [due.number, due.place_kind, due.place, due.value_kind]
        && match due.value_kind {
            1 => same_value(text, starts, words[4], words[5], due),
            2 => words[4..] == [0, 0] && due.value == "()",
            _ => words[5] == 0 && words[4].to_string() == due.value,
        }
}

/// Whether the offsets cut out the value where it stands; `starts` are those of the data's characters.
fn same_value(text: &str, starts: &[usize], start: i32, end: i32, due: &Found) -> bool {
    let (Ok(start), Ok(end)) = (usize::try_from(start), usize::try_from(end)) else {
        return false;
    };
    let stands = match (due.place_kind, due.value) {
        (DATA, _) => starts
            .get(due.place as usize - 1)
            .is_some_and(|token| start == token_value(text, *token)),
        // Where the blanks of an empty value are trimmed to isn't told.
        (_, "") => true,
        _ => Some(start) == line_value(text, due),
    };
    stands && text.get(start..end) == Some(due.value)
}

/// Where the value of the token at this offset starts.
fn token_value(text: &str, token: usize) -> usize {
    match text.as_bytes()[token] {
        b'%' | b'$' | b'@' | b';' | b'=' => token + 1,
        _ => token,
    }
}

/// Where the value that a line gives starts: the line's for d1, else the field's.
fn line_value(text: &str, due: &Found) -> Option<usize> {
    let mut lines = text.split('\n');
    let before: usize = lines
        .by_ref()
        .take(due.place as usize - 1)
        .map(|line| line.len() + 1)
        .sum();
    let line = trimmed(text, before, before + lines.next()?.len());
    if due.number == 1 {
        return Some(line.0);
    }
    field_in(text, line).map(|field| field.value.0)
}

/// An answer in few words, as `C D{ E} / F(3) =*; d10 at 8`: each note's letters, `-` or `=` for a rest; behind it `{`, `,`
/// or `}` where a beam begins, goes on or ends, the notes of a tuplet, and a `*` for each mark; then the diagnostics.
pub fn told(reading: Reading, cells: &Cells) -> String {
    if reading.number != 0 {
        return format!("refused {} at {}", reading.number, reading.place);
    }
    let mut out = String::new();
    let mut bar = 1;
    let notes = cells.notes().chunks_exact(NOTE);
    for words in notes.take(reading.notes as usize) {
        let space = if out.is_empty() { "" } else { " " };
        out += if words[BAR_NUMBER] == bar {
            space
        } else {
            " / "
        };
        bar = words[BAR_NUMBER];
        let pitches = words[PITCHES..].chunks_exact(PITCH);
        for pitch in pitches.take(words[PITCH_COUNT] as usize) {
            out += &"CDEFGAB"[pitch[1] as usize..][..1];
        }
        out += match words[KIND] {
            REST => "-",
            WHOLE_BARS => "=",
            _ => "",
        };
        out += ["", "{", ",", "}"][words[BEAM] as usize];
        if words[TUPLET] != 0 {
            out += &format!("({})", words[TUPLET]);
        }
        out += &"*".repeat(words[MARK_COUNT] as usize);
    }
    let found = cells.diagnostics().chunks_exact(DIAGNOSTIC);
    for words in found.take(reading.diagnostics as usize) {
        out += &format!("; d{} at {}", words[0], words[2]);
    }
    out
}

fn whole_bars_in(notes: &[i32]) -> u64 {
    let records = notes.chunks_exact(NOTE);
    records.filter(|words| words[KIND] == WHOLE_BARS).count() as u64
}

/// An escaped text, its middle left out where it is long.
pub fn shortened(text: &[u8]) -> String {
    if text.len() <= 400 {
        return text.escape_ascii().to_string();
    }
    let (head, tail) = (&text[..200], &text[text.len() - 200..]);
    format!("{} .. {}", head.escape_ascii(), tail.escape_ascii())
}

/// As many records are printed of each buffer.
const SHOWN: usize = 8;

/// Records as lists of words, without the zeros at the end of each; all but the first are left out.
fn shown(name: &str, words: &[i32], size: usize) -> String {
    let mut out = String::new();
    let used = words
        .iter()
        .rposition(|word| *word != 0)
        .map_or(0, |at| at / size + 1);
    for record in words.chunks(size).take(used.min(SHOWN)) {
        let length = record
            .iter()
            .rposition(|word| *word != 0)
            .map_or(0, |at| at + 1);
        out += &format!("{name}{:?}", &record[..length]);
    }
    if used > SHOWN {
        out += &format!("{name}.. {used} in all");
    }
    out
}

/// Cells enough for the needs.
pub fn ample(needs: Needs) -> Lent {
    Lent {
        notes: needs.notes * NOTE,
        bars: needs.bars * BAR,
        figure: needs.figure * NOTE,
        diagnostics: DIAGNOSTICS,
    }
}

const _: () = assert!(PITCHES + ROOM * PITCH == NOTE);
