//! A second implementation of document 01, motion upsampling between two
//! layers of a track clip, with document 02's requests E2, a camera that filmed
//! nothing, E3, the rounding of vector words, E5, which small macroblock fed it,
//! E7, where detail was sent, and E12, long vectors on wide screens. Written
//! from the papers alone, in plain Rust and without other crates, to be compared
//! with the proved library.

pub mod detail;
pub mod fed;
pub mod geometry;
pub mod grammar;
pub mod inherit;
pub mod log;
pub mod map;
pub mod record;
pub mod refusal;
pub mod session;
pub mod split;
pub mod text;
pub mod upsample;
pub mod word;

pub use fed::Fed;
pub use geometry::Numbers;
pub use log::{log, log_with_result, Logged};
pub use record::WORDS;
pub use refusal::Refusal;
pub use session::Session;
pub use split::{Split, SubSplit};
pub use text::{text, Text, TEXT_RECORDS, TEXT_WORDS};
pub use upsample::{macroblock, macroblock_wide, picture, picture_wide, Answer, Class, Counts, Kind};
