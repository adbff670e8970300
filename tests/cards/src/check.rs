//! Each call of the library, held against the model. The first difference is shown and ends the program.

use crate::library::Library;
use crate::model::{self, BAR_WORDS, NOTE_WORDS, PITCH_WORDS, Read, Records, Written};

/// Calls by their answers.
#[derive(Default)]
struct Counts {
    calls: u64,
    accepted: u64,
    not_such: u64,
    no_room: u64,
}

impl Counts {
    fn count(&mut self, number: u32) {
        self.calls += 1;
        match number {
            0 => self.accepted += 1,
            model::NOT_SUCH => self.not_such += 1,
            _ => self.no_room += 1,
        }
    }

    fn print(&self, name: &str) {
        println!(
            "  {name} {} calls, {} accepted, {} refused 14, {} refused 15",
            self.calls, self.accepted, self.not_such, self.no_room
        );
    }
}

pub struct Check {
    section: String,
    seed: u64,
    pub case: u64,
    library: Library,
    writes: Counts,
    reads: Counts,
}

impl Check {
    pub fn new(section: &str, seed: u64) -> Check {
        Check {
            section: section.to_string(),
            seed,
            case: 0,
            library: Library::default(),
            writes: Counts::default(),
            reads: Counts::default(),
        }
    }

    /// Writes the records with both; the answer that is the same.
    pub fn write(&mut self, notes: &[i32], bars: &[i32], lent: usize) -> Written {
        let expected = model::write(notes, bars, lent);
        let found = self.library.write(notes, bars, lent);
        self.writes.count(expected.number);
        if found.as_ref() == Some(&expected) {
            return expected;
        }
        self.head("writing", &format!("lent {lent} bytes"));
        show_records(notes, bars);
        match found {
            Some(found) => {
                println!("number, length: library {}, {}", found.number, found.length);
                println!("number, length: model   {}, {}", expected.number, expected.length);
                show_cells("byte", &found.cells, &expected.cells);
            }
            None => println!("the library wrote to a guard or to the records"),
        }
        std::process::exit(1)
    }

    /// Reads the card with both; the answer that is the same.
    pub fn read(&mut self, card: &[u8], notes: usize, bars: usize) -> Read {
        let expected = model::read(card, notes, bars);
        let found = self.library.read(card, notes, bars);
        self.reads.count(expected.number);
        if found.as_ref() == Some(&expected) {
            return expected;
        }
        self.head("reading", &format!("lent {notes} words for notes, {bars} for bars"));
        show_card(card);
        match found {
            Some(found) => {
                println!("number, notes, bars: library {}, {}, {}", found.number, found.notes, found.bars);
                println!("number, notes, bars: model   {}, {}, {}", expected.number, expected.notes, expected.bars);
                show_cells("note word", &found.cells.notes, &expected.cells.notes);
                show_cells("bar word", &found.cells.bars, &expected.cells.bars);
            }
            None => println!("the library wrote to a guard or to the card"),
        }
        std::process::exit(1)
    }

    /// Reads a card with just enough lent and writes what was accepted: the same bytes. True if it was accepted.
    pub fn both_ways(&mut self, card: &[u8]) -> bool {
        let (notes, bars) = most(card);
        let read = self.read(card, notes * NOTE_WORDS, bars * BAR_WORDS);
        if read.number == model::NOT_SUCH {
            return false;
        }
        let notes = &read.cells.notes[..read.notes as usize * NOTE_WORDS];
        let bars = &read.cells.bars[..read.bars as usize * BAR_WORDS];
        let written = self.write(notes, bars, card.len());
        if written.number != 0 || written.cells != card {
            self.stop("an accepted card isn't what its records are written as", card);
        }
        true
    }

    /// Writes such records and reads them back: the same records. The card.
    pub fn and_back(&mut self, records: &Records, lent: usize) -> Vec<u8> {
        let written = self.write(&records.notes, &records.bars, lent);
        let card = written.cells[..written.length as usize].to_vec();
        if written.number != 0 {
            self.head("writing", "such records are refused by both");
            show_records(&records.notes, &records.bars);
            std::process::exit(1);
        }
        let read = self.read(&card, records.notes.len(), records.bars.len());
        if read.number != 0 || read.cells != *records {
            self.stop("a written card doesn't give its records", &card);
        }
        card
    }

    fn head(&self, what: &str, lent: &str) {
        println!("DIFFERENT in {}, seed {}, case {}: {what}, {lent}", self.section, self.seed, self.case);
    }

    /// Shows a card that breaks what both should keep, and ends the program.
    pub fn stop(&self, message: &str, card: &[u8]) -> ! {
        self.head("both", message);
        show_card(card);
        std::process::exit(1)
    }

    pub fn print(&self) {
        self.writes.print("write");
        self.reads.print("read ");
        println!("  0 differences");
    }
}

/// Records that a card of so many bytes holds at most: a note takes 5 bytes at least, a bar 5.
fn most(card: &[u8]) -> (usize, usize) {
    ((card.len() / 5).min(model::MAX_NOTES), (card.len() / 10).min(model::MAX_NOTES))
}

const SHOWN: usize = 400;

fn show_card(card: &[u8]) {
    let bytes: Vec<String> = card.iter().take(SHOWN).map(|byte| format!("{byte:02x}")).collect();
    println!("card of {} bytes: {}", card.len(), bytes.join(" "));
}

fn show_records(notes: &[i32], bars: &[i32]) {
    println!("{} words of notes, {} words of bars", notes.len(), bars.len());
    for bar in bars.chunks(BAR_WORDS).take(SHOWN / 10) {
        println!("  bar {bar:?}");
    }
    for note in notes.chunks(NOTE_WORDS).take(SHOWN / 10) {
        let (head, pitches) = note.split_at(model::PITCHES.min(note.len()));
        let last = pitches.iter().rposition(|word| *word != 0).map_or(0, |at| at / PITCH_WORDS + 1);
        println!("  note {head:?} {:?}", &pitches[..(last * PITCH_WORDS).min(pitches.len())]);
    }
}

fn show_cells<T: PartialEq + std::fmt::Debug>(name: &str, found: &[T], expected: &[T]) {
    let differing = found.iter().zip(expected).enumerate().filter(|(_, (found, expected))| found != expected);
    for (at, (found, expected)) in differing.take(8) {
        println!("  {name} {at}: library {found:?}, model {expected:?}");
    }
}
