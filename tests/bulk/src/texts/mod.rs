//! The texts.

pub mod characters;
pub mod incipits;
pub mod limits;
pub mod lines;
pub mod short;
