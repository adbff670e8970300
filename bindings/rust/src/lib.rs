//! Reads Plaine & Easie Code (PAE) incipits through a reader whose every answer is proved.
//!
//! [`read`] takes a text and gives owned notes, bars and diagnostics:
//!
//! ```
//! let reading = urthmoli::read("$xF 8.6 F^A{GF}/nF")?;
//! assert_eq!(reading.bars.len(), 2);
//! assert_eq!(reading.notes[0].pitches[0].to_string(), "F#4");
//! assert_eq!(reading.notes[0].dot_count, 1);
//! # Ok::<(), urthmoli::Refusal>(())
//! ```
//!
//! What can't be read is refused, with the reason and the place:
//!
//! ```
//! let refusal = urthmoli::read("Cttttttttt").unwrap_err();
//! assert_eq!(refusal.number(), Some(10));
//! assert_eq!(refusal.place(), Some(10));
//! ```
//!
//! A rest of whole bars, `=` with the number of bars, is a record of its own kind in each of them. It
//! lasts as long as the bar, so it has no written length:
//!
//! ```
//! let reading = urthmoli::read("@3/4 =2/4C")?;
//! assert_eq!(reading.bars.len(), 3);
//! assert_eq!(reading.notes[1].kind, urthmoli::NoteKind::WholeBarRest);
//! assert_eq!(reading.notes[1].duration, None);
//! assert_eq!(reading.notes[2].duration, Some(urthmoli::Duration::Quarter));
//! # Ok::<(), urthmoli::Refusal>(())
//! ```
//!
//! Texts are in UTF-8. A place counts the characters (`char`) of the data from 1: those of the last
//! `@data:` field's trimmed value, or of the whole text where it has no fields. The character there
//! is `data.chars().nth(place - 1)`:
//!
//! ```
//! let text = "@title:Für Elise\n@data:é8''E";
//! let data = text.lines().rev().find_map(|line| line.trim().strip_prefix("@data:"));
//! let data = data.map_or(text, str::trim);
//! let place = urthmoli::read(text)?.notes[0].place;
//! assert_eq!(place, 5);
//! assert_eq!(data.chars().nth(place as usize - 1), Some('E'));
//! # Ok::<(), urthmoli::Refusal>(())
//! ```
//!
//! The span of a diagnostic counts bytes: `&text[span]` is its value.
//!
//! [`read_into`] does the same over your buffers and allocates nothing.
//!
//! # Equality
//!
//! Pitches, notes and bars are equal where the music is, wherever it stands in its text: a [`Pitch`]
//! is letter, octave and alteration, and a [`Note`] leaves its places and its bar's number out of
//! `==` and `Hash`, so that they can be keys of a map. The example `group` joins openings that way.
//!
//! ```
//! let (tight, wide) = (urthmoli::read("''C,D")?, urthmoli::read("''C / ,nD")?);
//! assert_eq!(tight.notes, wide.notes);
//! assert_eq!((tight.notes[1].place, wide.notes[1].place), (5, 9));
//! # Ok::<(), urthmoli::Refusal>(())
//! ```
//!
//! # Catalogue cards
//!
//! [`Reading::to_card`] makes a card of a reading's notes and bars, a short run of bytes to be stored
//! beside the shelf mark; [`Reading::from_card`] makes the same notes and bars of it again. The text
//! and its diagnostics are no part of a card. CARD.md in the package has the bytes.
//!
//! ```
//! use urthmoli::{CardError, Reading};
//!
//! let reading = urthmoli::read("$bB 4B+/B")?;
//! let card = reading.to_card()?;
//! assert_eq!(card.len(), 37);
//! let again = Reading::from_card(&card)?;
//! assert_eq!((&again.notes, &again.bars), (&reading.notes, &reading.bars));
//! assert_eq!(again.notes[1].to_words(), reading.notes[1].to_words()); // places too
//!
//! let cut = Reading::from_card(&card[..36]);
//! assert_eq!(cut, Err(CardError::NotACard));
//! # Ok::<(), Box<dyn std::error::Error>>(())
//! ```
//!
//! [`write_card_into`] and [`read_card_into`] do so over your records and bytes and allocate nothing.
//!
//! # Threads
//!
//! Nothing is kept between calls, so that any number of threads may call at once. The library takes
//! less than 32 KB of the caller's stack.

#![deny(missing_docs, unsafe_code)]

mod bar;
mod buffers;
mod card;
mod card_error;
mod diagnostic;
mod duration;
#[allow(unsafe_code, reason = "it calls the library")]
mod ffi;
mod limits;
mod list;
mod note;
mod owned;
mod pitch;
mod refusal;
mod version;
mod word;
pub mod words;

pub use bar::{Bar, Barline, Clef, KeySignature, TimeSignature, TimeSymbol};
pub use buffers::{Buffers, Records, read_into};
pub use card::{max_card_bytes, read_card_into, write_card_into};
pub use card_error::CardError;
pub use diagnostic::{Diagnostic, DiagnosticKind, Position};
pub use duration::Duration;
pub use limits::{
    DIAGNOSTIC_CELLS, MAX_MARKS, MAX_NOTES, MAX_PITCHES, MAX_TEXT_BYTES, MAX_WHOLE_BARS,
};
pub use list::List;
pub use note::{Articulation, BeamState, Note, NoteKind, Ties, TupletInfo};
pub use owned::{Reading, read};
pub use pitch::{Pitch, Step};
pub use refusal::Refusal;
pub use version::version;
pub use word::UnknownWord;

/// The README's example is run.
#[cfg(doctest)]
#[doc = include_str!("../README.md")]
struct Readme;
