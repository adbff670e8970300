//! The original Rust's answer, laid out in the words of the records; those that it doesn't have are left 0.

use crate::library::{BAR, NOTE};
use acorde_core::{
    Articulation, Barline, BeamState, Clef, Duration, Measure, Note, Pitch, Step, TimeSymbol,
};
use acorde_io::{Diagnostic, Error, parse_pae_with_report};

/// The pitches and marks for which a note record has room.
pub const ROOM: usize = 8;
/// Where the pitches start in a note record, and how many words each has.
pub const PITCHES: usize = 12;
pub const PITCH: usize = 4;

#[derive(Clone, Copy, Debug, Default, PartialEq, Eq)]
pub enum Outcome {
    Accepted,
    #[default]
    Empty,
    TooLarge,
    TooManyNotes,
}

/// How many pitches and marks a note has.
#[derive(Clone, Copy, Debug, PartialEq, Eq)]
pub struct Size {
    pub pitches: usize,
    pub marks: usize,
}

#[derive(Default)]
pub struct Original {
    pub outcome: Outcome,
    pub notes: Vec<i32>,
    pub sizes: Vec<Size>,
    pub bars: Vec<i32>,
    pub diagnostics: Vec<Diagnostic>,
}

/// A diagnostic's number, place and value.
pub struct Found<'a> {
    pub number: i32,
    pub place_kind: i32,
    pub place: i32,
    pub value_kind: i32,
    pub value: &'a str,
}

impl Original {
    pub fn read(&mut self, text: &str) {
        self.notes.clear();
        self.sizes.clear();
        self.bars.clear();
        self.diagnostics.clear();
        match parse_pae_with_report(text) {
            Err(Error::Empty) => self.outcome = Outcome::Empty,
            Err(Error::TooLarge(_)) => self.outcome = Outcome::TooLarge,
            Err(Error::Xml(_)) => self.outcome = Outcome::TooManyNotes,
            Ok(report) => {
                self.outcome = Outcome::Accepted;
                self.diagnostics = report.diagnostics;
                for measure in &report.score.parts[0].staves[0].measures {
                    self.lay_out(measure);
                }
            }
        }
    }

    pub fn note_count(&self) -> usize {
        self.sizes.len()
    }

    pub fn bar_count(&self) -> usize {
        self.bars.len() / BAR
    }

    /// Whether some note has more pitches, or more marks, than a record has room for.
    pub fn passes_pitches(&self) -> bool {
        self.sizes.iter().any(|size| size.pitches > ROOM)
    }

    pub fn passes_marks(&self) -> bool {
        self.sizes.iter().any(|size| size.marks > ROOM)
    }

    fn lay_out(&mut self, measure: &Measure) {
        let first = self.note_count();
        for note in &measure.voices[0] {
            self.notes.extend(note_words(note, measure.number as i32));
            self.sizes.push(Size {
                pitches: note.pitches.len(),
                marks: note.articulations.len(),
            });
        }
        self.bars.extend(bar_words(measure, first));
    }
}

fn note_words(note: &Note, bar: i32) -> [i32; NOTE] {
    let (actual, normal) = note.tuplet.as_ref().map_or((0, 0), |tuplet| {
        (tuplet.actual_notes.into(), tuplet.normal_notes.into())
    });
    let mut words = [0; NOTE];
    words[1] = kind(note);
    words[2] = duration(&note.duration);
    words[3] = note.dot_count.into();
    words[4] = i32::from(note.tie_start) + 2 * i32::from(note.tie_end);
    words[5] = beam(&note.beam);
    words[6] = actual;
    words[7] = normal;
    words[8] = note.articulations.len() as i32;
    words[9] = marks(&note.articulations);
    words[10] = note.pitches.len() as i32;
    words[11] = bar;
    let pitches = words[PITCHES..].chunks_exact_mut(PITCH);
    for (cell, pitch) in pitches.zip(&note.pitches) {
        cell.copy_from_slice(&pitch_words(pitch));
    }
    words
}

fn pitch_words(pitch: &Pitch) -> [i32; PITCH] {
    let octave = pitch.octave.into();
    [0, step(&pitch.step), octave, pitch.alter.into()]
}

fn kind(note: &Note) -> i32 {
    match (note.is_rest, note.is_grace, note.grace_slash) {
        (false, false, false) => 0,
        (true, false, false) => 1,
        (false, true, false) => 2,
        (false, true, true) => 3,
        other => panic!("no kind for {other:?}"),
    }
}

fn duration(value: &Duration) -> i32 {
    match value {
        Duration::Longa => 0,
        Duration::Breve => 1,
        Duration::Whole => 2,
        Duration::Half => 3,
        Duration::Quarter => 4,
        Duration::Eighth => 5,
        Duration::Sixteenth => 6,
        Duration::ThirtySecond => 7,
        Duration::SixtyFourth => 8,
        Duration::HundredTwentyEighth => 9,
    }
}

fn beam(value: &BeamState) -> i32 {
    match value {
        BeamState::None => 0,
        BeamState::Begin => 1,
        BeamState::Continue => 2,
        BeamState::End => 3,
        other => panic!("no beam for {other:?}"),
    }
}

/// Bit i is 1 where mark i is a trill.
fn marks(articulations: &[Articulation]) -> i32 {
    let mut bits = 0;
    for (at, mark) in articulations.iter().take(ROOM).enumerate() {
        match mark {
            Articulation::Trill => bits |= 1 << at,
            Articulation::Fermata => {}
            other => panic!("no mark for {other:?}"),
        }
    }
    bits
}

fn step(value: &Step) -> i32 {
    match value {
        Step::C => 0,
        Step::D => 1,
        Step::E => 2,
        Step::F => 3,
        Step::G => 4,
        Step::A => 5,
        Step::B => 6,
    }
}

fn bar_words(measure: &Measure, first: usize) -> [i32; BAR] {
    let key = measure.key_sig.as_ref();
    let (numerator, denominator) = measure.time_sig.as_ref().map_or((0, 0), |time| {
        (time.numerator.into(), time.denominator.into())
    });
    [
        first as i32,
        measure.voices[0].len() as i32,
        clef(measure.clef.as_ref()),
        i32::from(key.is_some()),
        key.map_or(0, |key| key.fifths.into()),
        numerator,
        denominator,
        symbol(measure.time_symbol.as_ref()),
        barline(&measure.barline_left),
        barline(&measure.barline_right),
    ]
}

fn clef(value: Option<&Clef>) -> i32 {
    match value {
        None => 0,
        Some(Clef::Treble) => 1,
        Some(Clef::Treble8vb) => 2,
        Some(Clef::Bass) => 3,
        Some(Clef::Soprano) => 4,
        Some(Clef::MezzoSoprano) => 5,
        Some(Clef::Alto) => 6,
        Some(Clef::Tenor) => 7,
        Some(Clef::Baritone) => 8,
        Some(other) => panic!("no clef for {other:?}"),
    }
}

fn symbol(value: Option<&TimeSymbol>) -> i32 {
    match value {
        None => 0,
        Some(TimeSymbol::Common) => 1,
        Some(TimeSymbol::Cut) => 2,
    }
}

fn barline(value: &Barline) -> i32 {
    match value {
        Barline::Normal => 0,
        Barline::Double => 1,
        Barline::RepeatStart => 2,
        Barline::RepeatEnd => 3,
        other => panic!("no barline for {other:?}"),
    }
}

pub fn found(diagnostic: &Diagnostic) -> Found<'_> {
    let reason = diagnostic.loss_reason.as_deref().unwrap_or("");
    let location = diagnostic.source_location.as_deref().unwrap_or("");
    let number = number(&diagnostic.code, reason);
    let (place_kind, place) = located(location);
    Found {
        number,
        place_kind,
        place,
        value_kind: match number {
            10 => 2,
            11 => 3,
            _ => 1,
        },
        value: diagnostic.preserved_value.as_deref().unwrap_or(""),
    }
}

/// The place kind and the place of `/data/N`, `/line/N` and `/line/N/field/KEY`.
fn located(location: &str) -> (i32, i32) {
    let parsed = |digits: &str| digits.parse().unwrap_or(-1);
    if let Some(place) = location.strip_prefix("/data/") {
        return (3, parsed(place));
    }
    let line = location.strip_prefix("/line/").unwrap_or("");
    match line.split_once("/field/") {
        Some((line, _)) => (2, parsed(line)),
        None => (1, parsed(line)),
    }
}

/// The number of a diagnostic, from its code and reason.
fn number(code: &str, reason: &str) -> i32 {
    match (code.strip_prefix("pae.unsupported-").unwrap_or(""), reason) {
        ("line", _) => 1,
        ("field", _) => 2,
        ("mid-measure-change", _) => 3,
        ("clef", "mensural clef is imported as its modern equivalent") => 4,
        ("clef", "clef is outside the supported subset") => 5,
        ("key", _) => 6,
        ("time", _) => 7,
        ("octave", _) => 8,
        ("barline", _) => 9,
        ("tuplet", "a fermata or tuplet group crossing a barline is not imported") => 10,
        ("tuplet", "tuplets need at least three notes") => 11,
        ("tuplet", "tuplet count must follow ';' inside parentheses") => 12,
        ("token", "unmatched ')'") => 13,
        ("token", "a trill must follow a note in the same bar") => 14,
        ("token", "PAE token is outside the supported subset") => 15,
        ("tie", _) => 16,
        ("repeat", "a repeated figure crossing a barline is not imported") => 17,
        ("repeat", "'f' needs a preceding !…! figure") => 18,
        ("repeat", "'i' repeats a whole previous bar and must start a bar") => 19,
        ("measure-rest", _) => 20,
        other => panic!("no number for {other:?}"),
    }
}
