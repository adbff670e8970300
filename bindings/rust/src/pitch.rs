//! Pitches, named as in acorde.

use crate::word::{UnknownWord, number, word, words_enum};
use crate::words::{PITCH_WORDS, pitch};
use std::fmt;

words_enum! {
    /// A pitch's letter.
    Step, "step" {
        /// C
        C = 0,
        /// D
        D = 1,
        /// E
        E = 2,
        /// F
        F = 3,
        /// G
        G = 4,
        /// A
        A = 5,
        /// B
        B = 6,
    }
}

impl Step {
    /// The semitones above C.
    fn semitone(self) -> i16 {
        match self {
            Self::C => 0,
            Self::D => 2,
            Self::E => 4,
            Self::F => 5,
            Self::G => 7,
            Self::A => 9,
            Self::B => 11,
        }
    }
}

/// A pitch. Displayed as `F#5` or `Bb3`.
///
/// Two pitches are equal where letter, octave and alteration are, wherever their letters stand.
/// Places are beside the pitches of a note ([`Note::pitch_places`](crate::Note::pitch_places)).
/// `C#4` and `Db4`, which sound alike, are not equal; their [`to_midi`](Self::to_midi) is.
#[derive(Clone, Copy, Debug, PartialEq, Eq, Hash)]
pub struct Pitch {
    /// The letter.
    pub step: Step,
    /// The octave, 0 to 9; 4 begins at middle C.
    pub octave: i8,
    /// The alteration in semitones, -2 to 2, key and bar accounted for.
    pub alter: i8,
}

impl Pitch {
    /// Stands in a list's unused cells.
    pub(crate) const UNUSED: Self = Self {
        step: Step::C,
        octave: 0,
        alter: 0,
    };

    /// The MIDI note number; middle C, `C4`, is 60.
    #[must_use]
    pub fn to_midi(&self) -> i16 {
        (i16::from(self.octave) + 1) * 12 + self.step.semitone() + i16::from(self.alter)
    }

    pub(crate) fn from_words(words: &[i32; PITCH_WORDS]) -> Result<Self, UnknownWord> {
        Ok(Self {
            step: Step::from_word(words[pitch::STEP])?,
            octave: number("octave", words[pitch::OCTAVE])?,
            alter: number("alteration", words[pitch::ALTER])?,
        })
    }

    /// The words of a pitch whose letter stands at `place`.
    pub(crate) fn words(self, place: u32) -> [i32; PITCH_WORDS] {
        let mut words = [0; PITCH_WORDS];
        words[pitch::PLACE] = word(place);
        words[pitch::STEP] = self.step.word();
        words[pitch::OCTAVE] = word(self.octave);
        words[pitch::ALTER] = word(self.alter);
        words
    }
}

impl fmt::Display for Pitch {
    fn fmt(&self, f: &mut fmt::Formatter<'_>) -> fmt::Result {
        let sign = if self.alter < 0 { "b" } else { "#" };
        let signs = sign.repeat(self.alter.unsigned_abs().into());
        write!(f, "{:?}{signs}{}", self.step, self.octave)
    }
}
