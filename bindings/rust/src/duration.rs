//! Written lengths, named as in acorde.

use crate::word::words_enum;
use std::fmt;

words_enum! {
    /// The written length, without dots. Displayed as `quarter` or `16th`.
    Duration, "duration" {
        /// Four whole notes.
        Longa = 0,
        /// Two whole notes.
        Breve = 1,
        /// A whole note.
        Whole = 2,
        /// A half.
        Half = 3,
        /// A quarter.
        Quarter = 4,
        /// An eighth.
        Eighth = 5,
        /// A 16th.
        Sixteenth = 6,
        /// A 32nd.
        ThirtySecond = 7,
        /// A 64th.
        SixtyFourth = 8,
        /// A 128th.
        HundredTwentyEighth = 9,
    }
}

impl Duration {
    /// The length as a fraction of a whole note.
    #[must_use]
    pub fn as_fraction(self) -> (u32, u32) {
        match self {
            Self::Longa => (4, 1),
            Self::Breve => (2, 1),
            Self::Whole => (1, 1),
            Self::Half => (1, 2),
            Self::Quarter => (1, 4),
            Self::Eighth => (1, 8),
            Self::Sixteenth => (1, 16),
            Self::ThirtySecond => (1, 32),
            Self::SixtyFourth => (1, 64),
            Self::HundredTwentyEighth => (1, 128),
        }
    }
}

impl fmt::Display for Duration {
    fn fmt(&self, f: &mut fmt::Formatter<'_>) -> fmt::Result {
        f.pad(match self {
            Self::Longa => "longa",
            Self::Breve => "breve",
            Self::Whole => "whole",
            Self::Half => "half",
            Self::Quarter => "quarter",
            Self::Eighth => "eighth",
            Self::Sixteenth => "16th",
            Self::ThirtySecond => "32nd",
            Self::SixtyFourth => "64th",
            Self::HundredTwentyEighth => "128th",
        })
    }
}
