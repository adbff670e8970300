//! Why a card isn't written or read.

use crate::word::UnknownWord;
use std::error::Error;
use std::fmt;

/// Why a card isn't written or read. 15 is given only where 14 isn't.
#[derive(Clone, Copy, Debug, PartialEq, Eq, Hash)]
#[non_exhaustive]
pub enum CardError {
    /// 14 of the writer: the notes and bars are not such as a card holds.
    NotRecords,
    /// 14 of the reader: the bytes are not those of a card.
    NotACard,
    /// 15 of the writer: the card doesn't fit its buffer; never from
    /// [`Reading::to_card`](crate::Reading::to_card).
    CardRoom,
    /// 15 of the reader: the notes or bars don't fit their buffers; never from
    /// [`Reading::from_card`](crate::Reading::from_card).
    RecordRoom,
    /// Not the library's: crate and library don't belong together.
    Unknown(UnknownWord),
}

impl CardError {
    /// The writer's refusal of this number.
    pub(crate) fn of_writer(number: u32) -> Self {
        match number {
            14 => Self::NotRecords,
            15 => Self::CardRoom,
            number => Self::Unknown(UnknownWord::new("refusal", number)),
        }
    }

    /// The reader's refusal of this number.
    pub(crate) fn of_reader(number: u32) -> Self {
        match number {
            14 => Self::NotACard,
            15 => Self::RecordRoom,
            number => Self::Unknown(UnknownWord::new("refusal", number)),
        }
    }

    /// The refusal's number, 14 or 15.
    #[must_use]
    pub fn number(&self) -> Option<u32> {
        match self {
            Self::NotRecords | Self::NotACard => Some(14),
            Self::CardRoom | Self::RecordRoom => Some(15),
            Self::Unknown(_) => None,
        }
    }

    fn reason(&self, f: &mut fmt::Formatter<'_>) -> fmt::Result {
        match self {
            Self::NotRecords => f.write_str("the notes and bars are not such as a card holds"),
            Self::NotACard => f.write_str("the bytes are not those of a card"),
            Self::CardRoom => f.write_str("the card doesn't fit its buffer"),
            Self::RecordRoom => f.write_str("the card's notes or bars don't fit their buffers"),
            Self::Unknown(unknown) => write!(f, "{unknown}"),
        }
    }
}

impl fmt::Display for CardError {
    fn fmt(&self, f: &mut fmt::Formatter<'_>) -> fmt::Result {
        if let Some(number) = self.number() {
            write!(f, "refused {number}: ")?;
        }
        self.reason(f)
    }
}

impl Error for CardError {}

impl From<UnknownWord> for CardError {
    fn from(unknown: UnknownWord) -> Self {
        Self::Unknown(unknown)
    }
}

#[cfg(test)]
mod tests {
    use super::*;

    #[test]
    fn numbers_of_writer_and_reader() {
        assert_eq!(CardError::of_writer(14), CardError::NotRecords);
        assert_eq!(CardError::of_writer(15), CardError::CardRoom);
        assert_eq!(CardError::of_reader(14), CardError::NotACard);
        assert_eq!(CardError::of_reader(15), CardError::RecordRoom);
    }

    #[test]
    fn a_number_of_another_version() {
        let message = "99 is no refusal to this crate: libpae.a is of another version";
        for error in [CardError::of_writer(99), CardError::of_reader(99)] {
            assert_eq!(error.number(), None);
            assert_eq!(error.to_string(), message);
        }
    }
}
