//! Reads incipits from standard input, one to a line, and prints what each reads to:
//! `printf '%s\n' "xC''C'C/C" '@3/4 =12/4C' | cargo run --example lines`

use std::io::{self, BufRead, Write};
use urthmoli::{Bar, Barline, Duration, Note, NoteKind, Reading, read};

fn main() -> io::Result<()> {
    let mut out = io::stdout().lock();
    for line in io::stdin().lock().split(b'\n') {
        match read(line?) {
            Ok(reading) => writeln!(out, "{}", described(&reading).trim_end())?,
            Err(refusal) => writeln!(out, "{refusal}")?,
        }
    }
    Ok(())
}

fn described(reading: &Reading) -> String {
    let bars = reading.bars.iter().map(|bar| bar_text(reading, bar));
    let diagnostics = reading
        .diagnostics
        .iter()
        .map(|found| format!("[{found}] "));
    bars.chain(diagnostics).collect()
}

/// The bar's notes with its barlines, as `C4:4 D4:8. |`.
fn bar_text(reading: &Reading, bar: &Bar) -> String {
    let left = match bar.barline_left {
        Barline::RepeatStart => "|: ",
        Barline::Normal | Barline::Double | Barline::RepeatEnd => "",
    };
    let right = match bar.barline_right {
        Barline::Double => "|| ",
        Barline::RepeatEnd => ":| ",
        Barline::Normal | Barline::RepeatStart => "| ",
    };
    let notes = reading
        .notes_of(bar)
        .iter()
        .map(|note| note_text(note) + " ");
    format!("{left}{}{right}", notes.collect::<String>())
}

/// The pitches, `-` for a rest, and after a colon the length; `=` for a rest of the whole bar.
fn note_text(note: &Note) -> String {
    let pitches: Vec<String> = note.pitches.iter().map(ToString::to_string).collect();
    let sign = match note.kind {
        NoteKind::Note => "",
        NoteKind::Rest => "-",
        NoteKind::Grace => "q",
        NoteKind::SlashedGrace => "g",
        NoteKind::WholeBarRest => "=",
        _ => "?",
    };
    let length = note.duration.map_or(String::new(), length);
    let dots = ".".repeat(note.dot_count.into());
    format!("{sign}{}{length}{dots}", pitches.join("^"))
}

/// `:4` for a quarter; `:4/1` for a longa, `:2/1` for a breve.
fn length(duration: Duration) -> String {
    match duration.as_fraction() {
        (1, part) => format!(":{part}"),
        (wholes, part) => format!(":{wholes}/{part}"),
    }
}
