//! f32 and f64 values by kind, and their comparison: "all NaNs count as one", zeros keep their sign.
use crate::random::Random;

/// One NaN for all.
pub fn bits(x: f32) -> u32 {
    if x.is_nan() { 0x7fc0_0000 } else { x.to_bits() }
}

/// One NaN for all.
pub fn bits64(x: f64) -> u64 {
    if x.is_nan() { 0x7ff8_0000_0000_0000 } else { x.to_bits() }
}

pub fn same(x: f32, y: f32) -> bool {
    bits(x) == bits(y)
}

/// Zeros, smallest and largest subnormals and normals, ones and their neighbours, infinities, NaNs, both signs.
pub const SPECIAL: [u32; 26] = [
    0x0000_0000,
    0x8000_0000,
    0x0000_0001,
    0x8000_0001,
    0x0000_0002,
    0x007f_ffff,
    0x807f_ffff,
    0x0080_0000,
    0x8080_0000,
    0x0080_0001,
    0x3f00_0000,
    0x3f7f_ffff,
    0x3f80_0000,
    0xbf80_0000,
    0x3f80_0001,
    0x4000_0000,
    0xc000_0000,
    0x4b80_0000,
    0x7eff_ffff,
    0x7f00_0000,
    0x7f7f_ffff,
    0xff7f_ffff,
    0x7f80_0000,
    0xff80_0000,
    0x7fc0_0000,
    0xff80_0001,
];

pub fn special(r: &mut Random) -> f32 {
    f32::from_bits(r.pick(&SPECIAL))
}

pub fn any(r: &mut Random) -> f32 {
    f32::from_bits(r.bits())
}

pub fn subnormal(r: &mut Random) -> f32 {
    f32::from_bits(r.bits() & 0x807f_ffff)
}

/// A normal value with the leading one at 2^e, e held within -126 to 127.
pub fn at(r: &mut Random, e: i64) -> f32 {
    let field = (e.clamp(-126, 127) + 127) as u32;
    f32::from_bits(r.bits() & 0x807f_ffff | field << 23)
}

/// Special values of f64: zeros, smallest and largest subnormals and normals, ones and their neighbours, 2^53 and the sizes where f32 ends, infinities, a NaN.
pub const SPECIAL64: [u64; 20] = [
    0x0000_0000_0000_0000,
    0x8000_0000_0000_0000,
    0x0000_0000_0000_0001,
    0x800f_ffff_ffff_ffff,
    0x0010_0000_0000_0000,
    0x36a0_0000_0000_0000,
    0x3690_0000_0000_0000,
    0x3690_0000_0000_0001,
    0x3fef_ffff_ffff_ffff,
    0x3ff0_0000_0000_0000,
    0xbff0_0000_0000_0000,
    0x3ff0_0000_0000_0001,
    0x4340_0000_0000_0000,
    0x47ef_ffff_e000_0000,
    0x47ef_ffff_f000_0000,
    0x7fef_ffff_ffff_ffff,
    0xffef_ffff_ffff_ffff,
    0x7ff0_0000_0000_0000,
    0xfff0_0000_0000_0000,
    0x7ff8_0000_0000_0000,
];

/// A normal f64 with the leading one at 2^e.
pub fn at64(r: &mut Random, e: i64) -> f64 {
    f64::from_bits(r.word() & 0x800f_ffff_ffff_ffff | ((e + 1023) as u64) << 52)
}

/// The f32 some places further in the order of bits, the sign kept.
pub fn beside(x: f32, places: i64) -> f32 {
    let b = x.to_bits();
    let size = (i64::from(b & 0x7fff_ffff) + places).clamp(0, 0x7f80_0000) as u32;
    f32::from_bits(b & 0x8000_0000 | size)
}

/// m * 2^e, where that is an f32.
pub fn exact(m: i128, e: i32) -> Option<f32> {
    if m == 0 {
        return Some(0.0);
    }
    let zeros = m.trailing_zeros() as i32;
    let (m, e) = (m >> zeros, e + zeros);
    let length = 128 - m.unsigned_abs().leading_zeros() as i32;
    if length > 24 || e < -149 || e + length > 128 {
        return None;
    }
    let power = f64::from_bits(((e + 1023) as u64) << 52);
    Some((m as f64 * power) as f32)
}
