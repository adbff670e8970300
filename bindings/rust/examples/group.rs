//! Joins openings by their pitches: reads incipits from standard input, one to a line, and prints
//! each melody with the numbers of the lines that have it, then what is to be said of single lines:
//! `printf '%s\n' "xC''C/'D^F" "4xC-''nC q'EnD^F" =12 '@c:C' | cargo run --example group`
//!
//! Two openings are joined where their notes have the same pitches in the same order: the same letters,
//! octaves and alterations, a chord as a chord. Grace notes and rests are passed over, and lengths,
//! ties, marks, bars and clefs don't matter: copies of one work differ in these. What has only rests
//! and grace notes has no melody and is joined with nothing.

use std::collections::HashMap;
use std::fmt;
use std::io::{self, BufRead, Write};
use urthmoli::{List, MAX_PITCHES, Note, Pitch, Reading, read};

/// The pitches of each note, in order.
type Melody = Vec<List<Pitch, MAX_PITCHES>>;

/// Openings, by the numbers of their lines from 1. Displayed as they are printed.
#[derive(Default)]
pub struct Joined {
    /// Each melody with its lines, in the order of first lines.
    pub groups: Vec<(Melody, Vec<usize>)>,
    /// Lines with what is to be said of them: why a line has no melody, or what was found amiss in it.
    pub remarks: Vec<(usize, String)>,
}

fn main() -> io::Result<()> {
    let lines: Vec<_> = io::stdin().lock().split(b'\n').collect::<Result<_, _>>()?;
    write!(io::stdout().lock(), "{}", joined(lines))
}

/// Joins the lines that have the same melody.
pub fn joined(lines: impl IntoIterator<Item: AsRef<[u8]>>) -> Joined {
    let mut groups: HashMap<Melody, Vec<usize>> = HashMap::new();
    let mut remarks = Vec::new();
    for (line, number) in lines.into_iter().zip(1..) {
        match read(line) {
            Ok(reading) => {
                let found = reading.diagnostics.iter();
                remarks.extend(found.map(|found| (number, found.to_string())));
                match melody(&reading) {
                    melody if melody.is_empty() => remarks.push((number, "no melody".into())),
                    melody => groups.entry(melody).or_default().push(number),
                }
            }
            Err(refusal) => remarks.push((number, refusal.to_string())),
        }
    }
    let mut groups: Vec<_> = groups.into_iter().collect();
    groups.sort_by_key(|(_, lines)| lines[0]);
    Joined { groups, remarks }
}

/// The pitches by which readings are joined.
fn melody(reading: &Reading) -> Melody {
    let passed_over = |note: &&Note| note.kind.is_rest() || note.kind.is_grace();
    let notes = reading.notes.iter().filter(|note| !passed_over(note));
    notes.map(|note| note.pitches).collect()
}

/// As `C#4 E4^G4`.
#[must_use]
pub fn melody_text(melody: &[List<Pitch, MAX_PITCHES>]) -> String {
    let chord = |pitches: &List<Pitch, MAX_PITCHES>| {
        let names: Vec<_> = pitches.iter().map(ToString::to_string).collect();
        names.join("^")
    };
    let chords: Vec<_> = melody.iter().map(chord).collect();
    chords.join(" ")
}

impl fmt::Display for Joined {
    fn fmt(&self, f: &mut fmt::Formatter<'_>) -> fmt::Result {
        for (melody, lines) in &self.groups {
            let numbers: Vec<_> = lines.iter().map(ToString::to_string).collect();
            let plural = if lines.len() == 1 { "" } else { "s" };
            let text = melody_text(melody);
            writeln!(f, "line{plural} {}: {text}", numbers.join(", "))?;
        }
        for (line, remark) in &self.remarks {
            writeln!(f, "line {line}: {remark}")?;
        }
        Ok(())
    }
}
