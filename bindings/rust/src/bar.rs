//! Bars, named as in acorde.

use crate::word::{UnknownWord, number, unless_zero, word, words_enum};
use crate::words::{BAR_WORDS, BarWords, bar};

words_enum! {
    /// A clef.
    Clef, "clef" {
        /// `G-2`
        Treble = 1,
        /// `g-2`, sounding an octave lower.
        Treble8vb = 2,
        /// `F-4`
        Bass = 3,
        /// `C-1`
        Soprano = 4,
        /// `C-2`
        MezzoSoprano = 5,
        /// `C-3`
        Alto = 6,
        /// `C-4`
        Tenor = 7,
        /// `C-5`
        Baritone = 8,
    }
}

words_enum! {
    /// How a meter is drawn, if not by its numbers.
    TimeSymbol, "meter symbol" {
        /// `c`, 4/4
        Common = 1,
        /// `c/`, 2/2
        Cut = 2,
    }
}

words_enum! {
    /// A barline.
    Barline, "barline" {
        /// A single line.
        Normal = 0,
        /// A double line.
        Double = 1,
        /// The start of a repeat.
        RepeatStart = 2,
        /// The end of a repeat.
        RepeatEnd = 3,
    }
}

/// A key signature.
#[derive(Clone, Copy, Debug, PartialEq, Eq, Hash)]
pub struct KeySignature {
    /// -7 (seven flats) to 7 (seven sharps).
    pub fifths: i8,
}

/// A meter.
#[derive(Clone, Copy, Debug, PartialEq, Eq, Hash)]
pub struct TimeSignature {
    /// The upper number.
    pub numerator: u8,
    /// The lower number, a power of two.
    pub denominator: u8,
}

/// A bar that has notes. Bar number 1 is the first of a reading. It counts notes and knows no places,
/// so that two bars are equal where all their fields are.
#[derive(Clone, Copy, Debug, PartialEq, Eq, Hash)]
pub struct Bar {
    /// The index of its first note among the reading's notes.
    pub first_note: usize,
    /// The number of its notes.
    pub note_count: usize,
    /// The clef set at its start; the first bar of a text always has one.
    pub clef: Option<Clef>,
    /// The key set at its start; the first bar of a text always has one.
    pub key_sig: Option<KeySignature>,
    /// The meter set at its start.
    pub time_sig: Option<TimeSignature>,
    /// How that meter is drawn, if not by its numbers.
    pub time_symbol: Option<TimeSymbol>,
    /// The barline before it.
    pub barline_left: Barline,
    /// The barline after it.
    pub barline_right: Barline,
}

impl Bar {
    /// What a bar record stands for.
    ///
    /// # Errors
    ///
    /// A word to which this crate gives no meaning.
    pub fn from_words(words: &BarWords) -> Result<Self, UnknownWord> {
        Ok(Self {
            first_note: number("note index", words[bar::FIRST_NOTE])?,
            note_count: number("number of notes", words[bar::NOTE_COUNT])?,
            clef: unless_zero(words[bar::CLEF], Clef::from_word)?,
            key_sig: key_sig(words)?,
            time_sig: time_sig(words)?,
            time_symbol: unless_zero(words[bar::SYMBOL], TimeSymbol::from_word)?,
            barline_left: Barline::from_word(words[bar::LEFT])?,
            barline_right: Barline::from_word(words[bar::RIGHT])?,
        })
    }

    /// The record that stands for it, of which [`from_words`](Self::from_words) makes it again. None
    /// where no record does: a meter of numerator 0, a number beyond the words'.
    #[must_use]
    pub fn to_words(&self) -> Option<BarWords> {
        let words = self.words();
        (Self::from_words(&words) == Ok(*self)).then_some(words)
    }

    fn words(&self) -> BarWords {
        let mut words = [0; BAR_WORDS];
        words[bar::FIRST_NOTE] = word(self.first_note);
        words[bar::NOTE_COUNT] = word(self.note_count);
        words[bar::CLEF] = self.clef.map_or(0, Clef::word);
        if let Some(key) = self.key_sig {
            words[bar::KEY_SET] = 1;
            words[bar::FIFTHS] = word(key.fifths);
        }
        if let Some(meter) = self.time_sig {
            words[bar::NUMERATOR] = word(meter.numerator);
            words[bar::DENOMINATOR] = word(meter.denominator);
        }
        words[bar::SYMBOL] = self.time_symbol.map_or(0, TimeSymbol::word);
        words[bar::LEFT] = self.barline_left.word();
        words[bar::RIGHT] = self.barline_right.word();
        words
    }
}

fn key_sig(words: &BarWords) -> Result<Option<KeySignature>, UnknownWord> {
    unless_zero(words[bar::KEY_SET], |_| {
        let fifths = number("key", words[bar::FIFTHS])?;
        Ok(KeySignature { fifths })
    })
}

fn time_sig(words: &BarWords) -> Result<Option<TimeSignature>, UnknownWord> {
    unless_zero(words[bar::NUMERATOR], |numerator| {
        Ok(TimeSignature {
            numerator: number("meter", numerator)?,
            denominator: number("meter", words[bar::DENOMINATOR])?,
        })
    })
}
