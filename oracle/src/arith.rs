//! The operations "below the Rust" of document 01, Rust's own and the proved ones, with kinds of inputs for each.
use crate::{
    floats::{SPECIAL, SPECIAL64, any, at, at64, beside, exact, special, subnormal},
    macros::mul_add,
    probe::*,
    random::Random,
};

pub type Inputs = [f32; 3];
pub type Kind = (&'static str, fn(&mut Random) -> Inputs);

pub struct Op {
    pub word: &'static str,
    pub arity: usize,
    pub rust: fn(Inputs) -> f32,
    pub proved: fn(Inputs) -> f32,
    pub kinds: &'static [Kind],
}

pub fn mul_add_rounded(a: f32, b: f32, c: f32) -> f32 {
    mul_add!(a, b, c)
}

pub const OPS: [Op; 6] = [
    Op {
        word: "fma",
        arity: 3,
        rust: |[a, b, c]| a.mul_add(b, c),
        proved: |[a, b, c]| unsafe { probe_mul_add(a, b, c) },
        kinds: &[
            ("random bits", |r| [any(r), any(r), any(r)]),
            ("comparable sizes", comparable),
            ("subnormals", small_product),
            ("near overflow", large_product),
            ("sum at a tie", sum_at_tie),
            ("product at half a unit", half_unit),
            ("cancellation", cancelled),
            ("some special values", |r| with_specials(r, comparable)),
        ],
    },
    Op {
        word: "sqrt",
        arity: 1,
        rust: |[x, _, _]| x.sqrt(),
        proved: |[x, _, _]| unsafe { probe_sqrt(x) },
        kinds: &[
            ("random bits", |r| [any(r), 0.0, 0.0]),
            ("positive", |r| [any(r).abs(), 0.0, 0.0]),
            ("subnormals", |r| [subnormal(r).abs(), 0.0, 0.0]),
            ("beside a tie's square", root_at_tie),
            ("squares", square),
            ("special values", |r| [special(r), 0.0, 0.0]),
        ],
    },
    Op {
        word: "mid",
        arity: 2,
        rust: |[a, b, _]| f32::midpoint(a, b),
        proved: |[a, b, _]| unsafe { probe_midpoint(a, b) },
        kinds: &[
            ("random bits", |r| [any(r), any(r), 0.0]),
            ("comparable sizes", near_pair),
            ("subnormals", |r| [subnormal(r), subnormal(r), 0.0]),
            ("near overflow", large_pair),
            ("half sum at a tie", half_sum_at_tie),
            ("cancellation", cancelled_pair),
            ("some special values", |r| with_specials(r, near_pair)),
        ],
    },
    Op {
        word: "clamp",
        arity: 3,
        rust: |[x, low, high]| x.clamp(low, high),
        proved: |[x, low, high]| unsafe { probe_clamp(x, low, high) },
        kinds: &[
            ("random bits", |r| ordered(any(r), any(r), any(r))),
            ("comparable sizes", comparable_ends),
            ("subnormals", |r| ordered(subnormal(r), subnormal(r), subnormal(r))),
            ("at an end", at_an_end),
            ("some special values", ordered_with_specials),
        ],
    },
    Op {
        word: "mac",
        arity: 3,
        rust: |[a, b, c]| mul_add_rounded(a, b, c),
        proved: |[a, b, c]| unsafe { probe_mul_add_rounded(a, b, c) },
        kinds: &[
            ("random bits", |r| [any(r), any(r), any(r)]),
            ("comparable sizes", comparable),
            ("subnormals", small_product),
            ("near overflow", large_product),
            ("sum at a tie", sum_at_tie),
            ("product at a tie", product_at_tie),
            ("product at half a unit", half_unit),
            ("cancellation", cancelled),
            ("some special values", |r| with_specials(r, comparable)),
        ],
    },
    Op {
        word: "pow",
        arity: 1,
        rust: |[x, _, _]| x.powi(2),
        proved: |[x, _, _]| unsafe { probe_powi2(x) },
        kinds: &[
            ("random bits", |r| [any(r), 0.0, 0.0]),
            ("subnormals", |r| [square_at(r, -80, -60), 0.0, 0.0]),
            ("near overflow", |r| [square_at(r, 62, 65), 0.0, 0.0]),
            ("square at a tie", square_at_tie),
            ("special values", |r| [special(r), 0.0, 0.0]),
        ],
    },
];

/// Two f32 and an f64: the operations of the totals (M-103).
pub type WideInputs = (f32, f32, f64);

pub struct WideOp {
    pub word: &'static str,
    pub rust: fn(WideInputs) -> f64,
    /// The bits of the result.
    pub proved: fn(WideInputs) -> u64,
}

pub const WIDE_OPS: [WideOp; 2] = [
    WideOp {
        word: "f64 fused",
        rust: |(a, b, t)| f64::from(a).mul_add(f64::from(b), t),
        proved: |(a, b, t)| unsafe { probe_total_mul_add(a, b, t) },
    },
    WideOp {
        word: "f64 sum of an f32 product",
        rust: |(a, b, t)| t + f64::from(a * b),
        proved: |(a, b, t)| unsafe { probe_total_add_product(t, a, b) },
    },
];

pub const WIDE_KINDS: [(&str, fn(&mut Random) -> WideInputs); 6] = [
    ("random bits", |r| (any(r), any(r), f64::from_bits(r.word()))),
    ("comparable sizes", wide_comparable),
    ("as totals grow", |r| {
        let (e, f) = (r.between(-3, 0), r.between(-20, 12));
        let g = e + f + r.between(0, 25);
        (at(r, e).abs(), at(r, f).abs(), at64(r, g).abs())
    }),
    ("sum at a tie", wide_tie),
    ("cancellation", |r| {
        let (e, f) = (r.between(-75, 60), r.between(-75, 60));
        let (a, b) = (at(r, e), at(r, f));
        let product = -(f64::from(a) * f64::from(b));
        (a, b, f64::from_bits(product.to_bits().wrapping_add_signed(r.between(-2, 2))))
    }),
    ("some special values", |r| {
        let (a, b, t) = wide_comparable(r);
        let t = if r.one_in(2) { f64::from_bits(r.pick(&SPECIAL64)) } else { t };
        (if r.one_in(2) { special(r) } else { a }, if r.one_in(2) { special(r) } else { b }, t)
    }),
];

/// All triples of special values.
pub fn wide_specials() -> Vec<WideInputs> {
    let f32s = || SPECIAL.into_iter().map(f32::from_bits);
    f32s().flat_map(|a| f32s().flat_map(move |b| SPECIAL64.map(|t| (a, b, f64::from_bits(t))))).collect()
}

fn wide_comparable(r: &mut Random) -> WideInputs {
    let (e, f) = (r.between(-126, 127), r.between(-126, 127));
    let g = e + f + r.between(-60, 60);
    (at(r, e), at(r, f), at64(r, g))
}

/// The product is half the last place of the f64, or a little beside that half.
fn wide_tie(r: &mut Random) -> WideInputs {
    let (e, k) = (r.between(-10, 60), r.between(1, 23) as i32);
    let t = at64(r, e);
    let half = e as i32 - 53; // 2^half is half of the place
    let (m, n): (i128, i128) = match r.below(4) {
        0 => (1 << k, 1),
        1 => ((1 << k) + 1, 1),
        2 => ((1 << k) - 1, 1),
        _ => ((1 << k) + 1, (1 << k) - 1), // 2^2k - 1
    };
    let places = if n == 1 { k } else { 2 * k };
    let split = r.between(-20, 20) as i32;
    let product = (exact(m, split), exact(n, half - places - split));
    let (a, b) = (product.0.expect("an f32"), product.1.expect("an f32"));
    (a, r.pick(&[1.0, -1.0]) * b, t)
}

impl Op {
    /// All pairs or triples of special values that Rust answers.
    pub fn specials(&self) -> Vec<Inputs> {
        let n = SPECIAL.len();
        (0..n.pow(self.arity as u32))
            .map(|i| [i, i / n, i / n / n].map(|k| f32::from_bits(SPECIAL[k % n])))
            .filter(|inputs| self.word != "clamp" || inputs[1] <= inputs[2])
            .collect()
    }
}

/// Each value with an even chance a special one.
fn with_specials(r: &mut Random, make: fn(&mut Random) -> Inputs) -> Inputs {
    make(r).map(|x| if r.one_in(2) { special(r) } else { x })
}

fn comparable(r: &mut Random) -> Inputs {
    let (e, f) = (r.between(-70, 60), r.between(-60, 60));
    let g = e + f + r.between(-50, 50);
    [at(r, e), at(r, f), at(r, g)]
}

/// A product near or below the smallest f32, with a small addend.
fn small_product(r: &mut Random) -> Inputs {
    let sum = r.between(-180, -110);
    let e = r.between(-126.max(sum), 20);
    let c = if r.one_in(2) { subnormal(r) } else { at(r, -120) };
    let a = if e < -100 && r.one_in(4) { subnormal(r) } else { at(r, e) };
    if r.one_in(2) { [a, at(r, sum - e), c] } else { [at(r, sum - e), a, c] }
}

fn large_product(r: &mut Random) -> Inputs {
    let e = r.between(0, 126);
    let f = 127 - e - r.between(0, 3);
    let g = r.between(100, 127);
    [at(r, e), at(r, f), at(r, g)]
}

/// m such that p * 2^e + m * 2^e lies on a tie between two neighbouring f32, or one unit 2^e beside it. p is positive.
fn to_tie(r: &mut Random, p: i128, e: i32) -> (i128, i32) {
    let length = 128 - p.leading_zeros() as i32;
    let step = (length + e - 24).max(-149); // neighbours near p * 2^e are 2^step apart
    let room = (1 - (step - e)).max(0) + if step <= e { r.below(20) as i32 } else { 0 };
    let (p, e) = (p << room, e - room); // the tie needs a place below 2^step
    let s = (step - e).min(100);
    let tie = (p >> s << s) + (1 << (s - 1)) + (i128::from(r.between(-2, 2)) << s);
    (tie + i128::from(r.between(-1, 1)) - p, e)
}

fn significand(r: &mut Random) -> i128 {
    i128::from(r.bits() >> r.between(8, 31) | 1)
}

fn signed(r: &mut Random, [a, b, c]: Inputs) -> Inputs {
    let (s, t) = (r.pick(&[1.0, -1.0]), r.pick(&[1.0, -1.0]));
    [s * a, t * b, s * t * c]
}

/// Tries until an exact triple is found.
fn found(r: &mut Random, attempt: impl Fn(&mut Random) -> Option<Inputs>) -> Inputs {
    loop {
        if let Some(inputs) = attempt(r) {
            return inputs;
        }
    }
}

fn sum_at_tie(r: &mut Random) -> Inputs {
    let inputs = found(r, |r| {
        let (m, n) = (significand(r), significand(r));
        let (e, f) = (r.between(-100, 50) as i32, r.between(-100, 50) as i32);
        let (c, g) = to_tie(r, m * n, e + f);
        Some([exact(m, e)?, exact(n, f)?, exact(c, g)?])
    });
    signed(r, inputs)
}

/// An addend and a product of half its last place, or a little beside that half.
fn half_unit(r: &mut Random) -> Inputs {
    found(r, |r| {
        let c = if r.one_in(3) { subnormal(r) } else { any(r) };
        let step = (((c.to_bits() >> 23 & 255) as i32).max(1) - 150).min(104);
        let (k, split) = (r.between(1, 23) as i32, r.between(-60, 60) as i32);
        let sign = r.pick(&[1, -1]);
        let (m, n): (i128, i128) = match r.below(4) {
            0 => (1 << k, sign),
            1 => ((1 << k) + 1, sign),
            2 => ((1 << k) - 1, sign),
            _ => ((1 << k) + 1, sign * ((1 << k) - 1)), // 2^2k - 1: one unit below the half
        };
        let places = if n.abs() == 1 { k } else { 2 * k };
        Some([exact(m, split)?, exact(n, step - 1 - places - split)?, c])
    })
}

/// A product that lies on a tie or up to one unit of its 48 digits beside it, and an addend.
fn product_at_tie(r: &mut Random) -> Inputs {
    let inputs = found(r, |r| {
        let a = u64::from(r.bits() >> 8 | 1 << 23 | 1);
        let bits = r.between(23, 24) as u32; // digits that rounding cuts off
        let mut inverse = a; // of a, modulo 2^bits: each turn doubles the number of right digits, from 3
        for _ in 0..4 {
            inverse = inverse.wrapping_mul(2u64.wrapping_sub(a.wrapping_mul(inverse)));
        }
        let end = (1u64 << (bits - 1)).wrapping_add_signed(r.between(-1, 1));
        let b = (end.wrapping_mul(inverse) % (1 << bits)) | (u64::from(bits == 23) << 23);
        if 64 - (a * b).leading_zeros() != 24 + bits {
            return None;
        }
        let (e, f) = (r.between(-90, 50) as i32, r.between(-90, 50) as i32);
        let g = i64::from(e + f) + 48 + r.between(-30, 30);
        let c = if r.one_in(3) { 0.0 } else { at(r, g) };
        Some([exact(a.into(), e)?, exact(b.into(), f)?, c])
    });
    signed(r, inputs)
}

/// c is the rounded -a * b, or a few places beside it.
fn cancelled(r: &mut Random) -> Inputs {
    let (e, f) = (r.between(-75, 60), r.between(-75, 60));
    let (a, b) = (at(r, e), at(r, f));
    [a, b, beside(-(a * b), r.between(-2, 2))]
}

/// x whose root is as near to a tie as roots come: x * 2^26 = h * h - d with h odd, of 25 digits, and d small.
fn root_at_tie(r: &mut Random) -> Inputs {
    let d = 8 * r.between(-1000, 1000) + 1;
    let mut h = 1i64; // h * h = d modulo 2^k: a root exists as d is 1 modulo 8
    for k in 3..26 {
        if (h * h - d) % (2 << k) != 0 {
            h += 1 << (k - 1);
        }
    }
    let h = h.max((1 << 25) - h); // the other root, if this one has fewer digits
    let x = exact(i128::from((h * h - d) >> 26), 2 * r.between(-74, 50) as i32).unwrap_or(2.0);
    [x, 0.0, 0.0]
}

fn square(r: &mut Random) -> Inputs {
    let m = i128::from(r.between(1, 4095));
    let x = exact(m * m, 2 * r.between(-74, 51) as i32).unwrap_or(4.0);
    [beside(x, r.between(-1, 1)), 0.0, 0.0]
}

fn near_pair(r: &mut Random) -> Inputs {
    let e = r.between(-126, 127);
    let f = e + r.between(-28, 28);
    [at(r, e), at(r, f), 0.0]
}

fn large_pair(r: &mut Random) -> Inputs {
    let f = r.between(100, 127);
    [at(r, 127), at(r, f), 0.0]
}

fn half_sum_at_tie(r: &mut Random) -> Inputs {
    let inputs = found(r, |r| {
        let (m, e) = (significand(r), r.between(-149, 100) as i32);
        let spare = r.below(20);
        let (c, g) = to_tie(r, m << spare, e - 1 - spare as i32);
        Some([exact(m, e)?, exact(c, g + 1)?, 0.0])
    });
    let s = r.pick(&[1.0, -1.0]);
    if r.one_in(2) { [s * inputs[0], s * inputs[1], 0.0] } else { [s * inputs[1], s * inputs[0], 0.0] }
}

fn cancelled_pair(r: &mut Random) -> Inputs {
    let a = any(r);
    [a, beside(-a, r.between(-3, 3)), 0.0]
}

/// Where Rust panics (an end is NaN, or the ends are in the wrong order) the input is made legal.
fn ordered(x: f32, low: f32, high: f32) -> Inputs {
    let low = if low.is_nan() { -1.0 } else { low };
    let high = if high.is_nan() { low } else { high };
    if low <= high { [x, low, high] } else { [x, high, low] }
}

fn comparable_ends(r: &mut Random) -> Inputs {
    let e = r.between(-126, 125);
    let (f, g) = (e + r.between(0, 2), e + r.between(0, 2));
    ordered(at(r, e), at(r, f), at(r, g))
}

fn ordered_with_specials(r: &mut Random) -> Inputs {
    let [x, low, high] = with_specials(r, comparable_ends);
    ordered(x, low, high)
}

fn at_an_end(r: &mut Random) -> Inputs {
    let [_, low, high] = if r.one_in(8) { ordered(0.0, special(r), special(r)) } else { comparable_ends(r) };
    let end = if r.one_in(2) { low } else { high };
    [beside(end, r.between(-1, 1)), low, high]
}

fn square_at(r: &mut Random, low: i64, high: i64) -> f32 {
    let e = r.between(low, high);
    at(r, e)
}

/// 2^11 times an odd number: its square has 47 digits and ends in a one and 22 zeros, a tie, or lies a place beside.
fn square_at_tie(r: &mut Random) -> Inputs {
    let odd = r.between(4096, 5792) | 1;
    let x = exact(i128::from(odd) << 11, r.between(-90, 40) as i32).unwrap_or(1.5);
    [r.pick(&[1.0, -1.0]) * beside(x, i64::from(r.one_in(4))), 0.0, 0.0]
}
