//! The proved transforms and reorderings beside those of docs/src (utils/dct.rs, blocks.rs, auxiliary.rs).
//!
//!     utils [SEED [BLOCKS]]       compares BLOCKS blocks (100,000) and all shapes of sides up to 64
//!     utils --faults              plants wrong results, one kind after another, and fails unless each is reported
//!     utils --list N [SEED]       prints N of Rust's answers
use artefact::pipeline::open::{auxiliary::upsample_pixels, blocks, dct};
use oracle::{
    floats::{SPECIAL, any, at, bits, same, special, subnormal},
    probe::*,
    random::Random,
    tally::Tally,
};
use std::process::ExitCode;

type Transform = (&'static str, fn(&mut [f32; 64]), unsafe fn(*mut f32, usize));

const TRANSFORMS: [Transform; 2] = [
    ("idct", dct::idct8x8, |a, n| unsafe { probe_idct8x8(a, n) }),
    ("dct", dct::dct8x8, |a, n| unsafe { probe_dct8x8(a, n) }),
];

type Make = fn(&mut Random) -> f32;

/// Kinds of blocks: each value of a block is made by the same function.
const KINDS: [(&str, Make); 8] = [
    ("coefficients", |r| if r.one_in(3) { (r.between(-200, 200) * r.between(1, 255)) as f32 } else { 0.0 }),
    ("samples", |r| r.between(-128 << 16, 128 << 16) as f32 / 65536.0),
    ("huge", |r| if r.one_in(9) { at(r, 126) } else { at(r, 119) }),
    ("subnormal", subnormal),
    ("any size", any),
    ("tiny sums", |r| if r.one_in(2) { at(r, -125) } else { subnormal(r) }),
    ("infinities and NaNs", |r| if r.one_in(60) { special(r) } else { at(r, 3) }),
    ("signed zeros and units", |r| f32::from_bits(r.pick(&SPECIAL[..17]))),
];

fn block(r: &mut Random, make: Make) -> [f32; 64] {
    std::array::from_fn(|_| make(r))
}

type Rearrange = fn(&[f32], &mut [f32], u32, u32, u32, u32);
type Proved = unsafe fn(*const f32, usize, *mut f32, usize, usize, usize);

const REARRANGE: [(&str, Rearrange, Proved); 2] = [
    ("from", blocks::from_blocks, |i, n, o, m, w, h| unsafe { probe_from_blocks(i, n, o, m, w, h) }),
    ("to", blocks::to_blocks, |i, n, o, m, w, h| unsafe { probe_to_blocks(i, n, o, m, w, h) }),
];

fn rearranged(f: Rearrange, input: &[f32], output: &[f32], (w, h): (usize, usize)) -> Vec<f32> {
    let mut output = output.to_vec();
    f(input, &mut output, w as u32, h as u32, w as u32 / 8, h as u32 / 8);
    output
}

/// Own sides, factors and full sides that a channel can have, up to a limit: (own, factor, full) in one direction.
fn covers(limit: usize) -> Vec<(usize, usize, usize)> {
    let sides = || (1..=limit / 8).map(|n| 8 * n);
    let all = sides().flat_map(|own| (1..=4).flat_map(move |f| sides().map(move |full| (own, f, full))));
    all.filter(|(own, factor, full)| own * factor <= *full).collect()
}

type Cover = (usize, usize, usize);

fn upsampled(image: &[f32], (w, across, full_w): Cover, (h, down, full_h): Cover) -> Vec<f32> {
    let mut out = vec![0.0; full_w * full_h];
    upsample_pixels(image, w as u32, h as u32, across, down, full_w as u32, full_h as u32, &mut out);
    out
}

fn main() -> ExitCode {
    let args: Vec<String> = std::env::args().skip(1).collect();
    let number = |i: usize, default: u64| args.get(i).map_or(default, |a| a.parse().expect("a whole number"));
    match args.first().map(String::as_str) {
        Some("--list") => list(number(1, 500), number(2, 1)),
        Some("--faults") => faults(),
        _ => {
            println!("seed {}", number(0, 1));
            compare(number(0, 1), number(1, 100_000), &mut Faults::default()).close()
        }
    }
}

/// Wrong results of the proved side, planted to see that they are reported: which kind, and how many.
#[derive(Default)]
struct Faults {
    kind: &'static str,
    planted: u64,
}

const FAULTS: [&str; 3] = ["the lowest bit of the last value", "the sign of the first zero", "two values exchanged"];

impl Faults {
    fn plant(&mut self, results: &mut [f32]) {
        let before = results.to_vec();
        let last = results.len() - 1;
        match self.kind {
            "the lowest bit of the last value" => results[last] = f32::from_bits(results[last].to_bits() ^ 1),
            "the sign of the first zero" => results.iter_mut().filter(|x| **x == 0.0).take(1).for_each(|x| *x = -*x),
            "two values exchanged" => results.swap(0, last),
            _ => (),
        }
        self.planted += u64::from(!equal(&before, results));
    }
}

/// Each kind has to be reported as often as it was planted, at least once.
fn faults() -> ExitCode {
    let missed: Vec<_> = FAULTS
        .into_iter()
        .filter(|kind| {
            let mut faults = Faults { kind, planted: 0 };
            let reported = compare(1, 800, &mut faults).differ();
            println!("{kind}: planted {}, reported {reported}", faults.planted);
            faults.planted == 0 || faults.planted != reported
        })
        .collect();
    println!("{} kinds of fault planted, {} missed: {missed:?}", FAULTS.len(), missed.len());
    u8::from(!missed.is_empty()).into()
}

fn equal(xs: &[f32], ys: &[f32]) -> bool {
    xs.len() == ys.len() && xs.iter().zip(ys).all(|(x, y)| same(*x, *y))
}

/// The constants of dct.rs, by name.
const CONSTANTS: [(&str, f32); 8] = [
    ("C8_1R", dct::C8_1R),
    ("C8_1I", dct::C8_1I),
    ("C8_2R", dct::C8_2R),
    ("C8_2I", dct::C8_2I),
    ("C8_3R", dct::C8_3R),
    ("C8_3I", dct::C8_3I),
    ("C8_4R", dct::C8_4R),
    ("W8_4R", dct::W8_4R),
];

/// The definitions of the transforms, whose constants are written as bits.
const DEFINITIONS: &str = include_str!("../../../crates/utils/specs/Dct.antt");

fn compare(seed: u64, count: u64, faults: &mut Faults) -> Tally {
    let (mut r, mut tally) = (Random::new(seed), Tally::default());
    tally.kind("constants of the definitions");
    for (name, value) in CONSTANTS {
        let line = format!("\n{name} = of_bits binary32 0x{:08x}\n", value.to_bits());
        tally.count(DEFINITIONS.contains(&line), || line);
    }
    for (word, rust, proved) in TRANSFORMS {
        for (name, make) in KINDS {
            tally.kind(&format!("{word} {name}"));
            for _ in 0..count.div_ceil(KINDS.len() as u64) {
                let input = block(&mut r, make);
                let (mut x, mut y) = (input, input);
                rust(&mut x);
                unsafe { proved(y.as_mut_ptr(), 64) };
                faults.plant(&mut y);
                tally.count(equal(&x, &y), || words(&input));
            }
        }
    }
    for (word, rust, proved) in REARRANGE {
        for spare in [0, 8] {
            tally.kind(&format!("{word}_blocks, {spare} places more"));
            for (w, h) in (8..=64).step_by(8).flat_map(|w| (8..=64).step_by(8).map(move |h| (w, h))) {
                let mut plane = || (0..w * h + spare).map(|_| any(&mut r)).collect::<Vec<f32>>();
                let (input, before) = (plane(), plane());
                let x = rearranged(rust, &input, &before, (w, h));
                let mut y = before;
                unsafe { proved(input.as_ptr(), input.len(), y.as_mut_ptr(), y.len(), w, h) };
                faults.plant(&mut y);
                tally.count(equal(&x, &y), || format!("{w} by {h}"));
            }
        }
    }
    tally.kind("upsample_pixels");
    let all = covers(64);
    for (x, y) in all.iter().flat_map(|x| all.iter().map(move |y| (*x, *y))) {
        let image: Vec<f32> = (0..x.0 * y.0).map(|_| any(&mut r)).collect();
        let rust = upsampled(&image, x, y);
        let mut out = vec![0.0; rust.len()];
        let ((w, across, full_w), (h, down, full_h)) = (x, y);
        let p = out.as_mut_ptr();
        unsafe { probe_upsample_pixels(image.as_ptr(), image.len(), w, h, across, down, full_w, full_h, p, out.len()) };
        faults.plant(&mut out);
        tally.count(equal(&rust, &out), || format!("own, factor, full: {x:?} across, {y:?} down"));
    }
    tally
}

fn words(xs: &[f32]) -> String {
    xs.iter().map(|x| format!(" {:08x}", bits(*x))).collect()
}

/// Transforms: the word, 64 values, 64 results. Reorderings of the values 0, 1, 2, ..: `from W H` or `to W H` and the results, or
/// `up w h across down W H` and the results.
fn list(count: u64, seed: u64) -> ExitCode {
    let mut r = Random::new(seed);
    for i in 0..count as usize {
        if i % 8 < 6 {
            let (word, rust, _) = TRANSFORMS[i % 2];
            let (_, make) = KINDS[i / 8 % KINDS.len()];
            let input = block(&mut r, make);
            let mut x = input;
            rust(&mut x);
            println!("{word}{}{}", words(&input), words(&x));
            continue;
        }
        let all = covers(24);
        let (x, y) = (r.pick(&all), r.pick(&all));
        let image: Vec<f32> = (0..x.0 * y.0).map(|k| k as f32).collect();
        if i % 8 == 6 {
            let (word, rust, _) = REARRANGE[i / 8 % 2];
            let out = rearranged(rust, &image, &vec![0.0; image.len()], (x.0, y.0));
            println!("{word} {:x} {:x}{}", x.0, y.0, words(&out));
        } else {
            let out = upsampled(&image, x, y);
            println!("up {:x} {:x} {:x} {:x} {:x} {:x}{}", x.0, y.0, x.1, y.1, x.2, y.2, words(&out));
        }
    }
    ExitCode::SUCCESS
}
