//! The proved smoother of spectrogram sheets, behind safe functions. Lengths, channel numbers, positions and the record are checked by the library
//! itself, how the processor rounds by this crate: a call that can't be made is refused, and changes nothing.
//!
//! ```
//! use smoother::Limits;
//! let text = std::fs::read("../../samples/whole.tsv").expect("the sample");
//! let sheet = smoother::read(&text, Limits::default())?;
//! let mut run = sheet.joint_run();
//! let mut buffers = run.buffers();
//! smoother::start(&mut run, sheet.levels(), &sheet.tables, &mut buffers)?;
//! assert!(buffers.plane.iter().all(|x| *x == 1.0 - 2.0_f32.powi(-24)));
//! # Ok::<(), Box<dyn std::error::Error>>(())
//! ```
/// Declares C functions.
macro_rules! exports {
    ($($functions:tt)*) => { unsafe extern "C" { $($functions)* } };
}

#[allow(dead_code)] // smoother_sheet_numbers, which only a test calls
mod ffi;
mod mode;
mod refusal;
mod run;
mod segments;
mod sheet;
mod stitch;
mod tapes;

pub use mode::rounds_to_nearest;
pub use refusal::{Error, Fault, Refusal};
pub use run::{
    Answers, Buffers, Channel, Job, Outcome, Projected, Reorder, Run, Totals, blend, call, data, move_plane, project,
    push, serve, serve_numbers, start,
};
pub use segments::{QUANTISERS, SEGMENT, dqt_export, dqt_export_into, dqt_import};
pub use sheet::{
    Lengths, Levels, Limits, NUMBERS, Own, Reader, Rounding, Sheet, Solved, finish_into, measure, read, read_as,
    read_into, solve_into,
};
pub use stitch::{Side, Unstitched, stitch, stitch_into, stitch_measure};
pub use tapes::{rearrange, rearrange_into, restore, restore_into};
