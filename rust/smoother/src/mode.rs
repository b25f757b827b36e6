//! How the processor rounds.
use crate::Error;
use std::arch::asm;

/// Rounding control (0 is to the nearest, ties to even), flush to zero, and denormals are zero.
const MODE: u32 = 0xE040;

/// Whether this thread's float operations round to the nearest, ties to even, and keep subnormals, as Rust takes them to do and as all theorems of the library
/// have it. C code that the thread has called may have left it otherwise (`fesetround`, `_mm_setcsr`, a shared library linked with `-ffast-math`): then the library would give
/// other values, and say that all is well. So the calls that compute look first, and are refused with [`Error::Mode`].
pub fn rounds_to_nearest() -> bool {
    // read and not computed: a sum that shows the mode would have to be kept from the compiler, which takes the mode to be the usual one; and one read tells of all three settings
    let mut mxcsr = 0_u32;
    // SAFETY: every x86-64 has SSE; the instruction writes the four bytes of `mxcsr`.
    unsafe { asm!("stmxcsr [{}]", in(reg) &raw mut mxcsr, options(nostack, preserves_flags)) };
    mxcsr & MODE == 0
}

/// Asked before each call that computes.
pub(crate) fn nearest() -> Result<(), Error> {
    if rounds_to_nearest() { Ok(()) } else { Err(Error::Mode) }
}
