//! All buffers of a sheet's runs after start and after each job, by the published Rust.
//!
//!     trace FILE.tsv      or a sheet text on standard input with `trace --trace`
//!
//! `K`, run, step, then the step constants' bits: term, factor, step size, second-order weight.
//! `J`, run, step (0 for start), job, channel of the run, position, mark (0 or 1), how many coefficients the last project moved; then a line per buffer: its
//! name and the bits of its values.
//! Fields are parted by one tab. Runs are counted from 0, steps from 1. Nothing follows a step that marks a channel. At each run's end its planes are held
//! against the published `solve`.
use oracle::{
    floats::bits,
    run::{Run, runs},
    sheet::{MOST, joined, read},
};
use std::{
    fs,
    io::{Read, Write, stdin, stdout},
    process::ExitCode,
};

fn hex(values: &[f32]) -> String {
    joined(values.iter().map(|x| format!("{:08x}", bits(*x))), "\t")
}

fn show(out: &mut impl Write, number: usize, run: &Run, job: &str, c: usize) {
    let p = run.positions[c];
    let (mark, clipped) = (u8::from(run.marks[c]), run.clipped[c]);
    let mut text = format!("J\t{number}\t{}\t{job}\t{c}\t{p}\t{mark}\t{clipped}\n", p.div_ceil(5));
    for (name, values) in run.buffers(c) {
        text += &format!("{name}\t{}\n", hex(&values));
    }
    out.write_all(text.as_bytes()).expect("standard output");
}

fn main() -> ExitCode {
    let mut text = vec![];
    match std::env::args().nth(1).filter(|word| word != "--trace") {
        Some(file) => text = fs::read(&file).unwrap_or_else(|e| panic!("{file}: {e}")),
        None => drop(stdin().read_to_end(&mut text).expect("standard input")),
    }
    let sheet = match read(&text, MOST) {
        Ok(sheet) => sheet,
        Err((number, line)) => {
            eprintln!("refused: {number}, line {line}");
            return ExitCode::FAILURE;
        }
    };
    let out = &mut stdout().lock();
    for (number, mut run) in runs(&sheet).into_iter().enumerate() {
        (0..run.channels()).for_each(|c| show(out, number, &run, "start", c));
        while !run.is_done() && !run.is_blown() {
            let step = run.positions[0] / 5 + 1;
            let k = run.constants().0;
            let constants = hex(&[k.term, k.factor, k.step_size, k.second_order_weight]);
            writeln!(out, "K\t{number}\t{step}\t{constants}").expect("standard output");
            run.step(|run, job, c| show(out, number, run, job, c));
        }
        let blown = run.is_blown();
        while !run.is_done() {
            run.step(|_, _, _| ()); // on, as `solve` does
        }
        if !run.check() {
            eprintln!("run {number}: the planes differ from those of `solve`");
            return ExitCode::FAILURE;
        }
        if blown {
            break;
        }
    }
    ExitCode::SUCCESS
}
