//! The exports of the proved libraries `probe` and `smoother` that the programs here call, and safe functions over those for a sheet. All sizes are usize;
//! a slice is a pointer and a length. Where a library was missing at build time, a call ends the program.
use crate::{jobs::Buffers, sheet::Limits};
use ffi::lend;

pub use crate::calls::Record as Run;
pub use ffi::*;

macro_rules! declared {
    ($library:ident: $(pub fn $name:ident($($arg:ident: $t:ty),* $(,)?) $(-> $answer:ty)?;)*) => {
        #[cfg($library)]
        unsafe extern "C" {
            $(pub fn $name($($arg: $t),*) $(-> $answer)?;)*
        }
        $(
            /// # Safety
            /// Never returns.
            #[cfg(not($library))]
            pub unsafe fn $name($(_: $t),*) $(-> $answer)? {
                super::missing()
            }
        )*
    };
}

/// The functions of `smoother`, as the Rust crate lists them.
macro_rules! exports {
    ($($functions:tt)*) => { declared! { smoother: $($functions)* } };
}

#[path = "../../rust/smoother/src/ffi.rs"]
pub mod ffi;

mod probes {
    declared! { probe:
        pub fn probe_mul_add(a: f32, b: f32, c: f32) -> f32;
        pub fn probe_sqrt(x: f32) -> f32;
        pub fn probe_midpoint(a: f32, b: f32) -> f32;
        pub fn probe_clamp(x: f32, low: f32, high: f32) -> f32;
        pub fn probe_mul_add_rounded(a: f32, b: f32, c: f32) -> f32;
        pub fn probe_powi2(x: f32) -> f32;
        pub fn probe_total_mul_add(a: f32, b: f32, t: f64) -> u64;
        pub fn probe_total_add_product(t: f64, a: f32, b: f32) -> u64;
        pub fn probe_idct8x8(a: *mut f32, len: usize);
        pub fn probe_dct8x8(a: *mut f32, len: usize);
        pub fn probe_from_blocks(input: *const f32, input_len: usize, output: *mut f32, output_len: usize, w: usize, h: usize);
        pub fn probe_to_blocks(input: *const f32, input_len: usize, output: *mut f32, output_len: usize, w: usize, h: usize);
        pub fn probe_upsample_pixels(
            image: *const f32,
            image_len: usize,
            w: usize,
            h: usize,
            across: usize,
            down: usize,
            full_w: usize,
            full_h: usize,
            out: *mut f32,
            out_len: usize,
        );
        pub fn probe_start(
            plane: *mut f32,
            plane_len: usize,
            prior: *mut f32,
            prior_len: usize,
            gradient: *mut f32,
            gradient_len: usize,
            across: *mut f32,
            across_len: usize,
            down: *mut f32,
            down_len: usize,
            saved: *mut f32,
            saved_len: usize,
            own_w: usize,
            own_h: usize,
            across_factor: usize,
            down_factor: usize,
            w: usize,
            h: usize,
            reorder: u32,
            lows: *const i16,
            lows_len: usize,
            highs: *const i16,
            highs_len: usize,
            table: *const u16,
            table_len: usize,
        );
        pub fn probe_push(
            plane: *mut f32,
            plane_len: usize,
            prior: *mut f32,
            prior_len: usize,
            w: u32,
            h: u32,
            iterations: u32,
            weight: f32,
            step: u32,
        );
        pub fn probe_data(
            saved: *const f32,
            saved_len: usize,
            gradient: *mut f32,
            gradient_len: usize,
            own_w: usize,
            own_h: usize,
            across_factor: usize,
            down_factor: usize,
            w: usize,
            h: usize,
            weight: f32,
            lows: *const i16,
            lows_len: usize,
            highs: *const i16,
            highs_len: usize,
            table: *const u16,
            table_len: usize,
        );
        pub fn probe_blend(
            plane: *const f32,
            plane_len: usize,
            gradient: *mut f32,
            gradient_len: usize,
            across: *mut f32,
            across_len: usize,
            down: *mut f32,
            down_len: usize,
            channels: usize,
            w: u32,
            h: u32,
            iterations: u32,
            weight: f32,
            step: u32,
            totals: *mut u64,
            totals_len: usize,
        );
        pub fn probe_move(
            plane: *mut f32,
            plane_len: usize,
            gradient: *const f32,
            gradient_len: usize,
            w: u32,
            h: u32,
            iterations: u32,
            weight: f32,
            step: u32,
        );
        pub fn probe_project(
            plane: *mut f32,
            plane_len: usize,
            across: *mut f32,
            across_len: usize,
            down: *mut f32,
            down_len: usize,
            saved: *mut f32,
            saved_len: usize,
            own_w: usize,
            own_h: usize,
            across_factor: usize,
            down_factor: usize,
            w: usize,
            h: usize,
            lows: *const i16,
            lows_len: usize,
            highs: *const i16,
            highs_len: usize,
            table: *const u16,
            table_len: usize,
        ) -> usize;
        pub fn probe_blown(plane: *const f32, plane_len: usize, saved: *const f32, saved_len: usize, n: usize) -> u32;
    }
}

pub use probes::*;

/// How many numbers a sheet's record has: the fields of line S, own sides and factors of three channels, then the settings F, A and H, each count of H by its meaning.
pub const NUMBERS: usize = 32;

pub fn measure(text: &[u8], limits: Limits, levels: &mut usize, tables: &mut usize, line: &mut usize) -> u32 {
    unsafe { lend!(smoother_measure(read text, limits.side, limits.iterations, levels, tables, line)) }
}

/// `reader` is 0 for the staff and 1 for a partner (M-110).
pub fn read(
    text: &[u8],
    limits: Limits,
    reader: u32,
    lows: &mut [i16],
    highs: &mut [i16],
    tables: &mut [u16],
    header: &mut [u32],
    line: &mut usize,
) -> u32 {
    unsafe {
        lend!(smoother_read(read text, limits.side, limits.iterations, reader, write lows, write highs, write tables, write header, line))
    }
}

/// `which` is 1 for the left text and 2 for the right (M-107).
pub fn stitch_measure(left: &[u8], right: &[u8], length: &mut usize, which: &mut u32, line: &mut usize) -> u32 {
    unsafe { lend!(smoother_stitch_measure(read left, read right, length, which, line)) }
}

pub fn stitch(left: &[u8], right: &[u8], out: &mut [u8], which: &mut u32, line: &mut usize) -> u32 {
    unsafe { lend!(smoother_stitch(read left, read right, write out, which, line)) }
}

pub fn solve(
    header: &[u32],
    [lows, highs]: [&[i16]; 2],
    tables: &[u16],
    six: &mut Buffers,
    clipped: &mut [u32],
    totals: &mut [f64],
) -> u32 {
    let [plane, prior, gradient, across, down, saved] = six;
    unsafe {
        lend!(smoother_solve(
            read header, read lows, read highs, read tables, write plane, write prior, write gradient, write across, write down, write saved,
            write clipped, write totals
        ))
    }
}

/// `sizes` are W, H, the picture's and the count of channels.
pub fn finish(rounding: u32, [w, h, width, height, channels]: [u32; 5], planes: &[f32], rgb: &mut [u8]) -> u32 {
    unsafe { lend!(smoother_finish(rounding, w, h, width, height, channels, read planes, write rgb)) }
}

#[allow(dead_code)]
fn missing() -> ! {
    eprintln!(
        "built without these proved functions: run `scripts/staticlib probe` and `scripts/staticlib smoother` in the repository, then build again"
    );
    std::process::exit(2)
}
