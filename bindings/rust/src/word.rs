//! From a stored word to what it stands for, and back.

use std::error::Error;
use std::fmt;

/// A word to which this crate gives no meaning. The reader is proved to store none, so this tells
/// that library and crate are of different versions.
#[derive(Clone, Copy, Debug, PartialEq, Eq, Hash)]
pub struct UnknownWord {
    /// What the word should have been.
    pub what: &'static str,
    /// The word.
    pub word: i64,
}

impl UnknownWord {
    pub(crate) fn new(what: &'static str, word: impl Into<i64>) -> Self {
        let word = word.into();
        Self { what, word }
    }
}

impl fmt::Display for UnknownWord {
    fn fmt(&self, f: &mut fmt::Formatter<'_>) -> fmt::Result {
        let Self { what, word } = self;
        write!(
            f,
            "{word} is no {what} to this crate: libpae.a is of another version"
        )
    }
}

impl Error for UnknownWord {}

/// A number in the range of its type.
pub(crate) fn number<T: TryFrom<i32>>(what: &'static str, word: i32) -> Result<T, UnknownWord> {
    T::try_from(word).map_err(|_| UnknownWord::new(what, word))
}

/// The word that holds `number`; the greatest word where none does.
pub(crate) fn word(number: impl TryInto<i32>) -> i32 {
    number.try_into().unwrap_or(i32::MAX)
}

/// A number of things of which there are at most `limit`.
pub(crate) fn count(what: &'static str, word: i32, limit: usize) -> Result<usize, UnknownWord> {
    match number(what, word)? {
        count if count <= limit => Ok(count),
        _ => Err(UnknownWord::new(what, word)),
    }
}

/// What a word stands for, where 0 stands for nothing.
pub(crate) fn unless_zero<T>(
    word: i32,
    meaning: impl Fn(i32) -> Result<T, UnknownWord>,
) -> Result<Option<T>, UnknownWord> {
    match word {
        0 => Ok(None),
        word => meaning(word).map(Some),
    }
}

/// An enum whose cases are the words of a record, each listed once.
macro_rules! words_enum {
    ($(#[$about:meta])* $name:ident, $what:literal {
        $($(#[$doc:meta])* $case:ident = $word:literal,)+
    }) => {
        $(#[$about])*
        #[derive(Clone, Copy, Debug, PartialEq, Eq, Hash)]
        #[repr(i32)]
        pub enum $name { $($(#[$doc])* $case = $word,)+ }

        impl $name {
            /// What `word` stands for.
            ///
            /// # Errors
            ///
            /// A word that stands for none of them.
            pub fn from_word(word: i32) -> Result<Self, $crate::UnknownWord> {
                match word {
                    $($word => Ok(Self::$case),)+
                    _ => Err($crate::UnknownWord::new($what, word)),
                }
            }

            /// The word that stands for it in a record.
            #[must_use]
            pub fn word(self) -> i32 {
                self as i32
            }
        }
    };
}
pub(crate) use words_enum;
