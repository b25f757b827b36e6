//! Nanoseconds per operation, proved and Rust's, on the same inputs.
//!
//!     bench_arith [ROUNDS]        best of ROUNDS (300)
use oracle::{
    arith::{Inputs, OPS},
    bench::best,
    probe::{probe_midpoint, probe_mul_add, probe_sqrt},
    random::Random,
};
use std::hint::black_box;

unsafe extern "C" {
    safe fn fmaf(a: f32, b: f32, c: f32) -> f32;
}

fn main() {
    let rounds = std::env::args().nth(1).map_or(300, |a| a.parse().expect("a whole number"));
    let mut r = Random::new(1);
    let mut inputs = |word: &str, kind: &str| -> Vec<Inputs> {
        let op = OPS.iter().find(|op| op.word == word).expect("an operation");
        let (_, make) = op.kinds.iter().find(|(name, _)| *name == kind).expect("a kind");
        (0..4096).map(|_| make(&mut r)).collect()
    };
    let mixed = inputs("fma", "comparable sizes");
    let small = inputs("fma", "subnormals");
    let pairs = inputs("mid", "comparable sizes");
    let roots = inputs("sqrt", "positive");
    // step size.mul_add(-(gradient / norm), plane): a small product onto a sample
    let moves: Vec<Inputs> = mixed.iter().map(|x| [0.7, x[0].clamp(-1.0, 1.0) * 1e-3, (x[1] % 128.0).abs()]).collect();

    println!("{:<44}{:>10}{:>10}{:>8}", "ns per call", "proved", "Rust", "ratio");
    let row = |name: &str, inputs: &[Inputs], proved: fn(Inputs) -> f32, rust: fn(Inputs) -> f32| {
        let time = |f: fn(Inputs) -> f32| {
            best(rounds, inputs.len(), || inputs.iter().for_each(|x| _ = black_box(f(black_box(*x)))))
        };
        let (p, q) = (time(proved), time(rust));
        println!("{name:<44}{p:>10.2}{q:>10.2}{:>8.2}", p / q);
    };
    let proved = |[a, b, c]: Inputs| unsafe { probe_mul_add(a, b, c) };
    let rust = |[a, b, c]: Inputs| a.mul_add(b, c);
    row("mul_add, comparable sizes", &mixed, proved, rust);
    row("mul_add, subnormals", &small, proved, rust);
    row("mul_add, as in move", &moves, proved, rust);
    row("mul_add beside libm's fmaf called directly", &mixed, proved, |[a, b, c]| fmaf(a, b, c));
    row("sqrt, positive", &roots, |x| unsafe { probe_sqrt(x[0]) }, |x| x[0].sqrt());
    row("midpoint, comparable sizes", &pairs, |x| unsafe { probe_midpoint(x[0], x[1]) }, |x| f32::midpoint(x[0], x[1]));
    row("nothing: the loop alone", &mixed, |x| x[0], |x| x[0]);
    println!("Rust's mul_add is a call of libm's fmaf here: {}", !cfg!(target_feature = "fma"));
}
