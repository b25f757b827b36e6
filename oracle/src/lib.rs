//! The oracle's common pieces: numbers at random, f32 kinds, the proved library, comparison.
pub mod arith;
pub mod bench;
pub mod calls;
pub mod floats;
pub mod holds;
pub mod jobs;
pub mod pairs;
pub mod picture;
pub mod probe;
pub mod program;
pub mod published;
pub mod random;
pub mod ranges;
pub mod replay;
pub mod run;
pub mod segments;
pub mod sheet;
pub mod stitch;
pub mod tally;
pub mod tapes;
pub mod texts;

#[path = "../stand-ins/utils/macros.rs"]
mod macros;
