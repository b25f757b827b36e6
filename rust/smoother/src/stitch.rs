//! Two sheets stitched in time (document 02, M-107).
use crate::{Refusal, ffi};
use std::fmt;

/// Which of the two texts.
#[derive(Clone, Copy, Debug, PartialEq, Eq)]
pub enum Side {
    Left,
    Right,
}

/// Why two texts were not stitched: the refusal and, where one of the texts is at fault, which one and its line there. `Seam`, `Size` for a summed width above 512,
/// and `Length` belong to neither.
#[derive(Clone, Copy, Debug, PartialEq, Eq)]
pub struct Unstitched {
    pub refusal: Refusal,
    pub at: Option<(Side, usize)>,
}

impl fmt::Display for Unstitched {
    fn fmt(&self, f: &mut fmt::Formatter<'_>) -> fmt::Result {
        match self.at {
            Some((Side::Left, line)) => write!(f, "left text, line {line}: {}", self.refusal),
            Some((Side::Right, line)) => write!(f, "right text, line {line}: {}", self.refusal),
            None => self.refusal.fmt(f),
        }
    }
}

impl std::error::Error for Unstitched {}

fn told(number: u32, which: u32, line: usize) -> Result<(), Unstitched> {
    if number == 0 {
        return Ok(());
    }
    let refusal = Refusal::of_number(number).expect("a number of the table");
    let at = match which {
        1 => Some((Side::Left, line)),
        2 => Some((Side::Right, line)),
        _ => None,
    };
    Err(Unstitched { refusal, at })
}

/// The length of the text that two sheets make side by side.
pub fn stitch_measure(left: &[u8], right: &[u8]) -> Result<usize, Unstitched> {
    let (mut length, mut which, mut line) = (0, 0, 0);
    // SAFETY: each pointer and length are of one slice, and nothing that is written overlaps them.
    let number = unsafe {
        ffi::smoother_stitch_measure(
            left.as_ptr(),
            left.len(),
            right.as_ptr(),
            right.len(),
            &mut length,
            &mut which,
            &mut line,
        )
    };
    told(number, which, line).map(|()| length)
}

/// That text in `out`, which has exactly its length, else 8. A refusal leaves `out` as it was.
pub fn stitch_into(left: &[u8], right: &[u8], out: &mut [u8]) -> Result<(), Unstitched> {
    let (mut which, mut line) = (0, 0);
    // SAFETY: as above.
    let number = unsafe {
        ffi::smoother_stitch(
            left.as_ptr(),
            left.len(),
            right.as_ptr(),
            right.len(),
            out.as_mut_ptr(),
            out.len(),
            &mut which,
            &mut line,
        )
    };
    told(number, which, line)
}

/// [`stitch_into`] a new vector.
///
/// ```
/// let [left, right, both] = ["left", "right", "stitched"].map(|name| std::fs::read(format!("../../samples/{name}.tsv")).expect("the sample"));
/// assert_eq!(smoother::stitch(&left, &right)?, both);
/// # Ok::<(), smoother::Unstitched>(())
/// ```
pub fn stitch(left: &[u8], right: &[u8]) -> Result<Vec<u8>, Unstitched> {
    let mut out = vec![0; stitch_measure(left, right)?];
    stitch_into(left, right, &mut out).map(|()| out)
}
