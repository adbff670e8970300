//! What a reading reports of the text.

use crate::word::{UnknownWord, number, words_enum};
use crate::words::DiagnosticCell;
use std::fmt;
use std::ops::Range;

words_enum! {
    /// What a diagnostic is about, numbered d1 to d20. Several may share one code.
    #[non_exhaustive]
    DiagnosticKind, "diagnostic" {
        /// d1: in field form, a line that is no field; the value is the line.
        UnsupportedLine = 1,
        /// d2: a field other than clef, keysig, timesig and data.
        UnsupportedField = 2,
        /// d3: a clef, key or meter after a note of its bar; it isn't taken.
        MidMeasureChange = 3,
        /// d4: a mensural clef (`+`), read as a modern one.
        MensuralClef = 4,
        /// d5: another clef; it isn't taken.
        UnsupportedClef = 5,
        /// d6: a key signature out of the usual order; its alterations hold.
        UnsupportedKey = 6,
        /// d7: a meter that can't be read; the old one is kept.
        UnsupportedTime = 7,
        /// d8: an octave outside 0 to 9; the old one is kept.
        UnsupportedOctave = 8,
        /// d9: a lone `:`.
        UnsupportedBarline = 9,
        /// d10: a `)` of a group opened in an earlier bar; nothing is made of it. The value is `()`.
        GroupOverBarline = 10,
        /// d11: a tuplet's count below 3; the value is the count.
        SmallTuplet = 11,
        /// d12: a `;` without a group, or without a count of 0 to 255.
        TupletCount = 12,
        /// d13: a `)` without `(`.
        UnmatchedParen = 13,
        /// d14: a trill before the first note of its bar.
        TrillWithoutNote = 14,
        /// d15: a token that has no meaning here; the value is its one character.
        UnsupportedToken = 15,
        /// d16: a tie that follows no note of its bar.
        TieWithoutNote = 16,
        /// d17: a closing `!` of a figure opened in an earlier bar; the figure before it stays.
        FigureOverBarline = 17,
        /// d18: an `f` without a figure.
        RepeatWithoutFigure = 18,
        /// d19: an `i` that doesn't start a bar, or has none before it.
        RepeatInsideBar = 19,
        /// d20: an `=` with a count outside 1 to [`MAX_WHOLE_BARS`](crate::MAX_WHOLE_BARS), which
        /// stores nothing; the value is the count's digits.
        WholeBarCount = 20,
    }
}

impl DiagnosticKind {
    /// The stable code, as in acorde.
    #[must_use]
    pub fn code(self) -> &'static str {
        match self {
            Self::UnsupportedLine => "pae.unsupported-line",
            Self::UnsupportedField => "pae.unsupported-field",
            Self::MidMeasureChange => "pae.unsupported-mid-measure-change",
            Self::MensuralClef | Self::UnsupportedClef => "pae.unsupported-clef",
            Self::UnsupportedKey => "pae.unsupported-key",
            Self::UnsupportedTime => "pae.unsupported-time",
            Self::UnsupportedOctave => "pae.unsupported-octave",
            Self::UnsupportedBarline => "pae.unsupported-barline",
            Self::GroupOverBarline | Self::SmallTuplet | Self::TupletCount => {
                "pae.unsupported-tuplet"
            }
            Self::UnmatchedParen | Self::TrillWithoutNote | Self::UnsupportedToken => {
                "pae.unsupported-token"
            }
            Self::TieWithoutNote => "pae.unsupported-tie",
            Self::FigureOverBarline | Self::RepeatWithoutFigure | Self::RepeatInsideBar => {
                "pae.unsupported-repeat"
            }
            Self::WholeBarCount => "pae.unsupported-measure-rest",
        }
    }

    /// The reason in words, as in acorde but for d10 and d17: acorde's say 'crossing a barline'.
    #[must_use]
    pub fn reason(self) -> &'static str {
        match self {
            Self::UnsupportedLine => "line is not a PAE field",
            Self::UnsupportedField => "PAE field is not represented in the score model",
            Self::MidMeasureChange => "clef, key and meter changes inside a bar are not imported",
            Self::MensuralClef => "mensural clef is imported as its modern equivalent",
            Self::UnsupportedClef => "clef is outside the supported subset",
            Self::UnsupportedKey => {
                "non-standard key signature: pitches keep its alterations, the display does not"
            }
            Self::UnsupportedTime => "time signature is outside the supported subset",
            Self::UnsupportedOctave => "octave mark is out of range",
            Self::UnsupportedBarline => "barline is outside the supported subset",
            Self::GroupOverBarline => {
                "a fermata or tuplet group opened in an earlier bar is not imported"
            }
            Self::SmallTuplet => "tuplets need at least three notes",
            Self::TupletCount => "tuplet count must follow ';' inside parentheses",
            Self::UnmatchedParen => "unmatched ')'",
            Self::TrillWithoutNote => "a trill must follow a note in the same bar",
            Self::UnsupportedToken => "PAE token is outside the supported subset",
            Self::TieWithoutNote => "a tie must follow a note in the same bar",
            Self::FigureOverBarline => "a repeated figure opened in an earlier bar is not imported",
            Self::RepeatWithoutFigure => "'f' needs a preceding !…! figure",
            Self::RepeatInsideBar => "'i' repeats a whole previous bar and must start a bar",
            Self::WholeBarCount => "multi-measure rest count is out of range",
        }
    }
}

/// Where a diagnostic belongs. Displayed as acorde's locations: `/line/2`, `/line/2/field/title`
/// or `/data/5`.
#[derive(Clone, Debug, PartialEq, Eq, Hash)]
pub enum Position {
    /// A line of the text, from 1.
    Line(u32),
    /// A field that isn't read.
    Field {
        /// Its line, from 1.
        line: u32,
        /// Its key.
        key: String,
    },
    /// A place in the data, in characters from 1.
    Data(u32),
}

impl Position {
    fn from_cell(cell: &DiagnosticCell, text: &[u8]) -> Result<Self, UnknownWord> {
        let place = number("place", cell.place)?;
        match cell.place_kind {
            1 => Ok(Self::Line(place)),
            2 => Ok(Self::Field {
                line: place,
                key: field_key(cell, text),
            }),
            3 => Ok(Self::Data(place)),
            kind => Err(UnknownWord::new("kind of place", kind)),
        }
    }
}

impl fmt::Display for Position {
    fn fmt(&self, f: &mut fmt::Formatter<'_>) -> fmt::Result {
        match self {
            Self::Line(line) => write!(f, "/line/{line}"),
            Self::Field { line, key } => write!(f, "/line/{line}/field/{key}"),
            Self::Data(place) => write!(f, "/data/{place}"),
        }
    }
}

/// The key of the field whose value the cell holds: it stands between the first `@` of the value's
/// line and the `:` after it.
fn field_key(cell: &DiagnosticCell, text: &[u8]) -> String {
    let key = cell
        .span()
        .and_then(|span| text.get(..span.start))
        .and_then(|before| before.rsplit(|byte| *byte == b'\n').next())
        .and_then(|line| line.splitn(2, |byte| *byte == b'@').nth(1))
        .and_then(|field| field.split(|byte| *byte == b':').next());
    String::from_utf8_lossy(key.unwrap_or_default()).into_owned()
}

fn value(cell: &DiagnosticCell, text: &[u8]) -> Result<String, UnknownWord> {
    match (cell.value_kind, cell.part(text)) {
        (1, Some(part)) => Ok(String::from_utf8_lossy(part).into_owned()),
        (2, _) => Ok("()".to_string()),
        (3, _) => Ok(cell.start.to_string()),
        (kind, _) => Err(UnknownWord::new("kind of value", kind)),
    }
}

/// A report about the text; all are warnings. Two are equal only where they stand at the same place.
#[derive(Clone, Debug, PartialEq, Eq, Hash)]
pub struct Diagnostic {
    /// What it is about.
    pub kind: DiagnosticKind,
    /// Where it belongs.
    pub position: Position,
    /// The value that it is about.
    pub value: String,
    /// The bytes of the text that are the value, from and to where characters begin; none for d10
    /// and d11.
    pub span: Option<Range<usize>>,
}

impl fmt::Display for Diagnostic {
    fn fmt(&self, f: &mut fmt::Formatter<'_>) -> fmt::Result {
        let Self {
            kind,
            position,
            value,
            ..
        } = self;
        write!(
            f,
            "{} at {position}: {} ({value:?})",
            kind.code(),
            kind.reason()
        )
    }
}

impl Diagnostic {
    /// What a cell stored by a reading of `text` stands for.
    ///
    /// # Errors
    ///
    /// A word to which this crate gives no meaning.
    pub fn from_cell(cell: &DiagnosticCell, text: &[u8]) -> Result<Self, UnknownWord> {
        Ok(Self {
            kind: DiagnosticKind::from_word(cell.number)?,
            position: Position::from_cell(cell, text)?,
            value: value(cell, text)?,
            span: cell.span(),
        })
    }
}
