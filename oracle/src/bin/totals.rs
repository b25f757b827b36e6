//! Blend's two totals beside those that the published `tv_gradient` and `tgv_gradient` return, bit for bit, on planes of any size.
//!
//!     totals [SEED [COUNT]]     COUNT planes (100,000) of sides 1 to 33 and one to three channels
//!     totals --faults           plants wrong totals, one kind after another, and fails unless each is reported
use artefact::{
    AlignedF32, Aux, PixelDifference,
    pipeline::open::{tgv_gradient, tv_gradient},
};
use oracle::{
    floats::{any, at, bits64, same, special, subnormal},
    probe::probe_blend,
    random::Random,
    tally::Tally,
};
use std::process::ExitCode;

type Make = fn(&mut Random) -> f32;

const VALUES: [(&str, Make); 8] = [
    ("samples", |r| r.between(-128 << 16, 128 << 16) as f32 / 65536.0),
    ("small whole numbers", |r| r.between(-2, 2) as f32),
    ("signed zeros", |r| r.pick(&[0.0, -0.0])),
    ("nearly flat", |r| if r.one_in(9) { 1.0 } else { 0.0 }),
    ("huge", |r| if r.one_in(9) { at(r, 126) } else { at(r, 60) }),
    ("subnormal", subnormal),
    ("any size", any),
    ("infinities and NaNs", |r| if r.one_in(200) { special(r) } else { at(r, 3) }),
];

/// As `step_constants` gets them; subnormal, huge and 0 among them.
const WEIGHTS: [f32; 7] = [0.0, 0.3, 1.0, 255.0, 1e-45, 1e-30, f32::MAX];

fn main() -> ExitCode {
    let args: Vec<String> = std::env::args().skip(1).collect();
    let number = |i: usize, default: u64| args.get(i).map_or(default, |a| a.parse().expect("a whole number"));
    if args.first().is_some_and(|word| word == "--faults") {
        return faults();
    }
    let (seed, count) = (number(0, 1), number(1, 100_000));
    println!("seed {seed}, {count} planes");
    compare(seed, count, "").close()
}

/// Wrong totals of the proved side, planted to see that they are reported.
const FAULTS: [&str; 3] = ["the lowest bit of the first", "the lowest bit of the second", "both exchanged"];

/// Each has to be reported wherever it changes something, and it does for some planes.
fn faults() -> ExitCode {
    let missed: Vec<_> = FAULTS.into_iter().filter(|fault| compare(1, 400, fault).differ() == 0).collect();
    println!("{} kinds of fault planted, {} missed: {missed:?}", FAULTS.len(), missed.len());
    u8::from(!missed.is_empty()).into()
}

fn compare(seed: u64, count: u64, fault: &str) -> Tally {
    let (mut r, mut tally) = (Random::new(seed), Tally::default());
    for i in 0..count as usize {
        let (kind, make) = VALUES[i % VALUES.len()];
        let (w, h, channels) = (r.between(1, 33) as u32, r.between(1, 33) as u32, r.pick(&[1usize, 3, 3, 2]));
        let (n, weight) = ((w * h) as usize, r.pick(&WEIGHTS));
        let plane: Vec<f32> = (0..channels * n).map(|_| make(&mut r)).collect();
        let zeros = || AlignedF32::zeros(n);
        let mut auxs: Vec<Aux> = (0..channels)
            .map(|c| Aux {
                cos: AlignedF32::zeros(0),
                obj_gradient: zeros(),
                pixel_diff: PixelDifference { x: zeros(), y: zeros() },
                fdata: plane[c * n..(c + 1) * n].to_vec().into(),
                fista: zeros(),
            })
            .collect();
        let first = tv_gradient(w, h, channels, &mut auxs);
        let second = tgv_gradient(w, h, channels, &mut auxs, weight / 2.0_f32.sqrt());
        let [mut gradient, mut across, mut down] = [0; 3].map(|_| vec![0f32; channels * n]);
        let (all, mut proved) = (channels * n, [0u64; 2]);
        unsafe {
            let (g, a, d) = (gradient.as_mut_ptr(), across.as_mut_ptr(), down.as_mut_ptr());
            let t = proved.as_mut_ptr();
            probe_blend(plane.as_ptr(), all, g, all, a, all, d, all, channels, w, h, 10, weight, 0, t, 2);
        }
        match fault {
            "the lowest bit of the first" => proved[0] ^= 1,
            "the lowest bit of the second" => proved[1] ^= 1,
            "both exchanged" => proved.swap(0, 1),
            _ => (),
        }
        let rust = [first, second].map(bits64);
        let published = auxs.iter().flat_map(|aux| aux.obj_gradient.iter());
        let gradients = published.zip(&gradient).all(|(x, y)| same(*x, *y));
        tally.count_in(kind, rust == proved && gradients, || {
            format!(
                "{w} by {h}, {channels} channels: Rust's {rust:016x?}, proved {proved:016x?}, gradients {gradients}"
            )
        });
        let name = if rust.contains(&0x7ff8_0000_0000_0000) {
            "of these with a NaN"
        } else if [first, second].iter().any(|x| x.is_infinite()) {
            "of these with an infinity"
        } else if first == 0.0 {
            "of these with a first total of 0"
        } else {
            continue;
        };
        tally.count_in(name, rust == proved, String::new);
    }
    tally
}
