//! Quantisation tables from a DQT segment of a JPEG file, and as one.
use crate::{Refusal, ffi, tapes::done};

/// Quantisers of four tables.
pub const QUANTISERS: usize = 256;

/// Bytes of a segment of four tables.
pub const SEGMENT: usize = 264;

/// Stores the tables of a DQT segment, from its FF DB marker to its stated length, at their destinations: `tables` has four tables of 64 quantisers, row by
/// row, one after the other; a destination that the segment doesn't name keeps its own. 8 unless `tables` has 256 places; 19 for a wrong marker or
/// stated length; then table by table 20, 19 and 4. A refusal leaves `tables` as it was.
///
/// ```
/// let mut segment = vec![0xFF, 0xDB, 0, 67, 1];       // one table, for destination 1
/// segment.extend(1..=64);
/// let mut tables = [8; smoother::QUANTISERS];
/// smoother::dqt_import(&segment, &mut tables)?;
/// assert_eq!(tables[64..72], [1, 2, 6, 7, 15, 16, 28, 29]);
/// assert_eq!(tables[..64], [8; 64]);
/// # Ok::<(), smoother::Refusal>(())
/// ```
pub fn dqt_import(segment: &[u8], tables: &mut [u16]) -> Result<(), Refusal> {
    // SAFETY: each pointer and length are of one slice, and the slices do not overlap.
    done(unsafe { ffi::smoother_dqt_import(segment.as_ptr(), segment.len(), tables.as_mut_ptr(), tables.len()) })
}

/// Writes four tables as one segment of 264 bytes, destinations rising. 8 unless `tables` has 256 places and `out` 264; 4 for a quantiser that isn't 1 to 255.
/// A refusal leaves `out` as it was.
pub fn dqt_export_into(tables: &[u16], out: &mut [u8]) -> Result<(), Refusal> {
    // SAFETY: as above.
    done(unsafe { ffi::smoother_dqt_export(tables.as_ptr(), tables.len(), out.as_mut_ptr(), out.len()) })
}

/// [`dqt_export_into`] a new array.
pub fn dqt_export(tables: &[u16]) -> Result<[u8; SEGMENT], Refusal> {
    let mut out = [0; SEGMENT];
    dqt_export_into(tables, &mut out).map(|()| out)
}
