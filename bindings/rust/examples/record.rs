//! Reads one record from standard input, bare data or fields one to a line, and prints its bars and
//! notes, each note with the sign of the data that stored it, and the diagnostics with the part of
//! the text that each is about:
//! `printf '%s\n' '@title:Grüße' "@data:=2/é''4CxD" | cargo run --example record`

use std::io::{self, Read, Write};
use urthmoli::{Bar, Diagnostic, Note, Reading, read};

fn main() -> io::Result<()> {
    let mut bytes = Vec::new();
    io::stdin().lock().read_to_end(&mut bytes)?;
    let mut out = io::stdout().lock();
    match (read(&bytes), str::from_utf8(&bytes)) {
        (Ok(reading), Ok(text)) => out.write_all(described(&reading, text).as_bytes()),
        (Err(refusal), _) => writeln!(out, "{refusal}"),
        // What is read is well-formed.
        (Ok(_), Err(malformed)) => Err(io::Error::other(malformed)),
    }
}

fn described(reading: &Reading, text: &str) -> String {
    let signs: Vec<char> = data_of(text).chars().collect();
    let bars = reading.bars.iter().zip(1..).map(|(bar, number)| {
        let notes = reading.notes_of(bar).iter();
        bar_line(bar, number)
            + &notes
                .map(|note| note_line(note, &signs))
                .collect::<String>()
    });
    let diagnostics = reading
        .diagnostics
        .iter()
        .map(|found| diagnostic_line(found, text));
    bars.chain(diagnostics).collect()
}

/// The characters that places count: the last data field's value, or the whole text.
fn data_of(text: &str) -> &str {
    let fields = text.lines().rev();
    let value = fields
        .map(str::trim)
        .find_map(|line| line.strip_prefix("@data:"));
    value.map_or(text, str::trim)
}

fn bar_line(bar: &Bar, number: usize) -> String {
    let clef = bar.clef.map_or(String::new(), |clef| format!(", {clef:?}"));
    let key = bar
        .key_sig
        .map_or(String::new(), |key| format!(", fifths {}", key.fifths));
    let meter = bar.time_sig.map_or(String::new(), |meter| {
        format!(", {}/{}", meter.numerator, meter.denominator)
    });
    format!("bar {number}{clef}{key}{meter}\n")
}

/// The note, and which sign stands at its place.
fn note_line(note: &Note, signs: &[char]) -> String {
    let sign = signs[note.place as usize - 1];
    format!("  {note}, from {sign} at place {}\n", note.place)
}

fn diagnostic_line(found: &Diagnostic, text: &str) -> String {
    let part = match found.span.clone().and_then(|span| text.get(span)) {
        Some(part) => format!("{part:?}"),
        None => format!("no part of the text, but {}", found.value),
    };
    format!(
        "d{} at {}: {}: {part}\n",
        found.kind.word(),
        found.position,
        found.kind.reason()
    )
}
