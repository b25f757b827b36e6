//! The proved operations beside Rust's, bit for bit.
//!
//!     arith [SEED [COUNT]]        compares COUNT inputs per operation (10,000,000) and all special values; the two of f64 among them
//!     arith --every               compares `sqrt` and `powi2` at every f32
//!     arith --list N [SEED]       prints N of Rust's answers, `OP A B C R` in hexadecimal, and N / 10 lines `wide`: four products A B, summed in f64 from 0, the first
//!                                 and the third fused, the others rounded to f32 first, then both halves of the sum's bits
use oracle::{
    arith::{Inputs, OPS, Op, WIDE_KINDS, WIDE_OPS, WideInputs, WideOp, wide_specials},
    floats::{bits, bits64, same},
    random::Random,
    tally::Tally,
};
use std::process::ExitCode;

fn main() -> ExitCode {
    let args: Vec<String> = std::env::args().skip(1).collect();
    let number = |i: usize, default: u64| args.get(i).map_or(default, |a| a.parse().expect("a whole number"));
    match args.first().map(String::as_str) {
        Some("--every") => every(),
        Some("--list") => list(number(1, 3000), number(2, 1)),
        _ => compare(number(0, 1), number(1, 10_000_000)),
    }
}

fn line(op: &Op, inputs: &Inputs) -> String {
    let operands: String = inputs[..op.arity].iter().map(|x| format!(" {:08x}", x.to_bits())).collect();
    format!("{}{operands} {:08x}", op.word, bits((op.rust)(*inputs)))
}

fn check(tally: &mut Tally, op: &Op, inputs: Inputs) {
    let proved = (op.proved)(inputs);
    tally.count(same(proved, (op.rust)(inputs)), || format!("{}, proved {:08x}", line(op, &inputs), proved.to_bits()));
}

fn check_wide(tally: &mut Tally, op: &WideOp, inputs: WideInputs) {
    let (rust, proved) = (bits64((op.rust)(inputs)), (op.proved)(inputs));
    tally.count(rust == proved, || format!("{} {inputs:?}: Rust's {rust:016x}, proved {proved:016x}", op.word));
}

fn compare(seed: u64, count: u64) -> ExitCode {
    let (mut r, mut tally) = (Random::new(seed), Tally::default());
    println!("seed {seed}");
    for op in &OPS {
        tally.kind(&format!("{} all special values", op.word));
        op.specials().into_iter().for_each(|inputs| check(&mut tally, op, inputs));
        for (name, make) in op.kinds {
            tally.kind(&format!("{} {name}", op.word));
            for _ in 0..count.div_ceil(op.kinds.len() as u64) {
                check(&mut tally, op, make(&mut r));
            }
        }
    }
    for op in &WIDE_OPS {
        tally.kind(&format!("{} all special values", op.word));
        wide_specials().into_iter().for_each(|inputs| check_wide(&mut tally, op, inputs));
        for (name, make) in WIDE_KINDS {
            tally.kind(&format!("{} {name}", op.word));
            for _ in 0..count.div_ceil(WIDE_KINDS.len() as u64) {
                check_wide(&mut tally, op, make(&mut r));
            }
        }
    }
    tally.close()
}

fn every() -> ExitCode {
    let mut tally = Tally::default();
    for op in OPS.iter().filter(|op| op.arity == 1) {
        tally.kind(&format!("{} every f32", op.word));
        (0..=u32::MAX).for_each(|b| check(&mut tally, op, [f32::from_bits(b), 0.0, 0.0]));
    }
    tally.close()
}

/// Some of the products are infinite or NaN.
fn wide_line(r: &mut Random) -> String {
    let mut pairs = [0; 4].map(|_| {
        let (_, make) = r.pick(&WIDE_KINDS[1..5]);
        let (a, b, _) = make(r);
        (a, b)
    });
    if r.one_in(8) {
        pairs[r.below(4)].0 = r.pick(&[f32::INFINITY, f32::NEG_INFINITY, f32::NAN, -0.0]);
    }
    let sum = pairs.iter().enumerate().fold(0.0, |t, (i, (a, b))| (WIDE_OPS[i % 2].rust)((*a, *b, t)));
    let operands: String = pairs.iter().map(|(a, b)| format!(" {:08x} {:08x}", a.to_bits(), b.to_bits())).collect();
    format!("wide{operands} {:08x} {:08x}", bits64(sum) >> 32, bits64(sum) as u32)
}

fn list(count: u64, seed: u64) -> ExitCode {
    let mut r = Random::new(seed);
    for i in 0..count as usize {
        let op = &OPS[i % OPS.len()];
        let (_, make) = op.kinds[i / OPS.len() % op.kinds.len()];
        println!("{}", line(op, &make(&mut r)));
    }
    (0..count / 10).for_each(|_| println!("{}", wide_line(&mut r)));
    ExitCode::SUCCESS
}
