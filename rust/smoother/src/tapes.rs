//! Levels rearranged for the archive tapes, and back.
use crate::{Refusal, ffi};

/// A call's answer that is 0 or a number of the table.
pub(crate) fn done(number: u32) -> Result<(), Refusal> {
    if number == 0 { Ok(()) } else { Err(Refusal::of_number(number).expect("a number of the table")) }
}

/// The levels of one channel as the tapes store them: each block in T.81's zigzag order, its first level as the difference from that of the block
/// before. Both slices have one length, a multiple of 64, else 8; a level beyond ±2,047 is 5. A refusal leaves `out` as it was.
pub fn rearrange_into(levels: &[i16], out: &mut [i16]) -> Result<(), Refusal> {
    // SAFETY: each pointer and length are of one slice, and the slices do not overlap.
    done(unsafe { ffi::smoother_rearrange(levels.as_ptr(), levels.len(), out.as_mut_ptr(), out.len()) })
}

/// The levels of one channel from what the tapes store. 8 as for `rearrange_into`; 5 where a level that it would give is beyond ±2,047.
pub fn restore_into(stored: &[i16], out: &mut [i16]) -> Result<(), Refusal> {
    // SAFETY: as above.
    done(unsafe { ffi::smoother_restore(stored.as_ptr(), stored.len(), out.as_mut_ptr(), out.len()) })
}

/// [`rearrange_into`] a new vector.
///
/// ```
/// let sheet = smoother::read(&std::fs::read("../../samples/whole.tsv")?, smoother::Limits::default())?;
/// let stored = smoother::rearrange(&sheet.lows)?;
/// assert_eq!(smoother::restore(&stored)?, sheet.lows);
/// # Ok::<(), Box<dyn std::error::Error>>(())
/// ```
pub fn rearrange(levels: &[i16]) -> Result<Vec<i16>, Refusal> {
    let mut out = vec![0; levels.len()];
    rearrange_into(levels, &mut out).map(|()| out)
}

/// [`restore_into`] a new vector.
pub fn restore(stored: &[i16]) -> Result<Vec<i16>, Refusal> {
    let mut out = vec![0; stored.len()];
    restore_into(stored, &mut out).map(|()| out)
}
