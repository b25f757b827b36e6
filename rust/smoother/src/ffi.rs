//! The library's C functions, as include/smoother.h has them: a slice is a pointer and a length. This file is also the oracle's, which has a macro
//! `exports!` and a type `Run` of its own.
use super::Run;

exports! {
    pub fn smoother_measure(
        text: *const u8,
        text_len: usize,
        side: u32,
        iterations: u32,
        levels: &mut usize,
        tables: &mut usize,
        line: &mut usize,
    ) -> u32;
    pub fn smoother_read(
        text: *const u8,
        text_len: usize,
        side: u32,
        iterations: u32,
        partner: u32,
        lows: *mut i16,
        lows_len: usize,
        highs: *mut i16,
        highs_len: usize,
        tables: *mut u16,
        tables_len: usize,
        header: *mut u32,
        header_len: usize,
        line: &mut usize,
    ) -> u32;
    pub fn smoother_stitch_measure(
        left: *const u8,
        left_len: usize,
        right: *const u8,
        right_len: usize,
        length: &mut usize,
        which: &mut u32,
        line: &mut usize,
    ) -> u32;
    pub fn smoother_stitch(
        left: *const u8,
        left_len: usize,
        right: *const u8,
        right_len: usize,
        out: *mut u8,
        out_len: usize,
        which: &mut u32,
        line: &mut usize,
    ) -> u32;
    pub fn smoother_start(
        run: &mut Run,
        lows: *const i16,
        lows_len: usize,
        highs: *const i16,
        highs_len: usize,
        tables: *const u16,
        tables_len: usize,
        plane: *mut f32,
        plane_len: usize,
        prior: *mut f32,
        prior_len: usize,
        gradient: *mut f32,
        gradient_len: usize,
        across: *mut f32,
        across_len: usize,
        down: *mut f32,
        down_len: usize,
        saved: *mut f32,
        saved_len: usize,
    ) -> u32;
    pub fn smoother_never_blows(run: &mut Run) -> u32;
    pub fn smoother_push(
        run: &mut Run,
        c: u32,
        plane: *mut f32,
        plane_len: usize,
        prior: *mut f32,
        prior_len: usize,
    ) -> u32;
    pub fn smoother_data(
        run: &mut Run,
        c: u32,
        lows: *const i16,
        lows_len: usize,
        highs: *const i16,
        highs_len: usize,
        tables: *const u16,
        tables_len: usize,
        gradient: *mut f32,
        gradient_len: usize,
        saved: *const f32,
        saved_len: usize,
    ) -> u32;
    pub fn smoother_blend(
        run: &mut Run,
        plane: *const f32,
        plane_len: usize,
        gradient: *mut f32,
        gradient_len: usize,
        across: *mut f32,
        across_len: usize,
        down: *mut f32,
        down_len: usize,
        totals: *mut f64,
        totals_len: usize,
    ) -> u32;
    pub fn smoother_move(
        run: &mut Run,
        c: u32,
        plane: *mut f32,
        plane_len: usize,
        gradient: *const f32,
        gradient_len: usize,
    ) -> u32;
    pub fn smoother_project(
        run: &mut Run,
        c: u32,
        lows: *const i16,
        lows_len: usize,
        highs: *const i16,
        highs_len: usize,
        tables: *const u16,
        tables_len: usize,
        plane: *mut f32,
        plane_len: usize,
        across: *mut f32,
        across_len: usize,
        down: *mut f32,
        down_len: usize,
        saved: *mut f32,
        saved_len: usize,
    ) -> u32;
    pub fn smoother_serve(
        run: &mut Run,
        jobs: *const u8,
        jobs_len: usize,
        channels: *const u32,
        channels_len: usize,
        answers: *mut u8,
        answers_len: usize,
        lows: *const i16,
        lows_len: usize,
        highs: *const i16,
        highs_len: usize,
        tables: *const u16,
        tables_len: usize,
        plane: *mut f32,
        plane_len: usize,
        prior: *mut f32,
        prior_len: usize,
        gradient: *mut f32,
        gradient_len: usize,
        across: *mut f32,
        across_len: usize,
        down: *mut f32,
        down_len: usize,
        saved: *mut f32,
        saved_len: usize,
    ) -> u32;
    pub fn smoother_solve(
        header: *const u32,
        header_len: usize,
        lows: *const i16,
        lows_len: usize,
        highs: *const i16,
        highs_len: usize,
        tables: *const u16,
        tables_len: usize,
        plane: *mut f32,
        plane_len: usize,
        prior: *mut f32,
        prior_len: usize,
        gradient: *mut f32,
        gradient_len: usize,
        across: *mut f32,
        across_len: usize,
        down: *mut f32,
        down_len: usize,
        saved: *mut f32,
        saved_len: usize,
        clipped: *mut u32,
        clipped_len: usize,
        totals: *mut f64,
        totals_len: usize,
    ) -> u32;
    pub fn smoother_finish(
        rounding: u32,
        w: u32,
        h: u32,
        width: u32,
        height: u32,
        channels: u32,
        planes: *const f32,
        planes_len: usize,
        rgb: *mut u8,
        rgb_len: usize,
    ) -> u32;
    pub fn smoother_run_bytes() -> u32;
    pub fn smoother_sheet_numbers() -> u32;
    pub fn smoother_rearrange(levels: *const i16, levels_len: usize, out: *mut i16, out_len: usize) -> u32;
    pub fn smoother_restore(stored: *const i16, stored_len: usize, out: *mut i16, out_len: usize) -> u32;
    pub fn smoother_dqt_import(segment: *const u8, segment_len: usize, tables: *mut u16, tables_len: usize) -> u32;
    pub fn smoother_dqt_export(tables: *const u16, tables_len: usize, out: *mut u8, out_len: usize) -> u32;
}

/// A call of one of them: `read x` and `write x` lend a slice, as its pointer and its length; `six b` lends the fields of `b` to be written; anything
/// else is handed on.
macro_rules! lend {
    ($f:ident($($args:tt)*)) => { lend!(@ $f [] $($args)*) };
    (@ $f:ident [$($done:tt)*]) => { $f($($done)*) };
    (@ $f:ident [$($done:tt)*] read $x:expr $(, $($rest:tt)*)?) => {
        lend!(@ $f [$($done)* $x.as_ptr(), $x.len(),] $($($rest)*)?)
    };
    (@ $f:ident [$($done:tt)*] write $x:expr $(, $($rest:tt)*)?) => {
        lend!(@ $f [$($done)* $x.as_mut_ptr(), $x.len(),] $($($rest)*)?)
    };
    (@ $f:ident [$($done:tt)*] six $b:ident $(, $($rest:tt)*)?) => {
        lend!(@ $f [$($done)*] write $b.plane, write $b.prior, write $b.gradient, write $b.across, write $b.down, write $b.saved
            $(, $($rest)*)?)
    };
    (@ $f:ident [$($done:tt)*] $x:expr $(, $($rest:tt)*)?) => { lend!(@ $f [$($done)* $x,] $($($rest)*)?) };
}
pub(crate) use lend;
