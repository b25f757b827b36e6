//! Whether mild sheets blow (M-112), and the smallest weights found that do.
//!
//!     mild [N [SEED]]             N sheets (20,000) with weights of at most 1 and at most 20 iterations, at the edges: by the published Rust, and by `smoother_solve`; none may blow
//!     mild --oracle [N [SEED]]    the same by the published Rust alone
//!     mild --search [N [SEED]]    N sheets (20,000) of up to 20 steps with larger weights, by the published Rust alone: the smallest weights that blow
//!
//! Edges: weights exactly 1 in either spelling, just below it, 0 and the smallest; 20 steps; levels at both ends and quantisers of 1 and 255; ranges, held channels, either start.
use oracle::{
    probe,
    random::Random,
    run::runs,
    sheet::{Channel, Levels, MOST, Sheet, Weight},
    tally::Tally,
    texts::legal,
};
use std::{collections::BTreeMap, process::ExitCode};

fn main() -> ExitCode {
    let args: Vec<String> = std::env::args().skip(1).collect();
    let number = |i: usize, default: u64| args.get(i).map_or(default, |a| a.parse().expect("a whole number"));
    match args.first().map(String::as_str) {
        Some("--search") => search(number(1, 20_000), number(2, 1)),
        Some("--oracle") => compare(number(1, 20_000), number(2, 1), false),
        _ => compare(number(0, 20_000), number(1, 1), true),
    }
}

/// Weights of at most 1; one in two is exactly 1.
fn mild_weight(r: &mut Random) -> Weight {
    match r.below(8) {
        0 | 1 => Weight::Whole(1),
        2 | 3 => Weight::Bits(0x3f80_0000),
        4 => Weight::Bits(r.pick(&[0x3f7f_ffff, 0x3f00_0000])),
        5 => Weight::Bits(r.pick(&[0, 1, 0x007f_ffff, 0x0080_0000])),
        6 => Weight::Whole(0),
        _ => Weight::Bits(r.between(0, 0x3f80_0000) as u32),
    }
}

/// Levels at the ends or any, each block of its own kind, ranges of any width.
fn extreme(r: &mut Random, c: &mut Channel) {
    let quantisers = r.pick(&[&[1, 255][..], &[1], &[255], &[1, 2]]);
    c.table.iter_mut().for_each(|q| *q = r.pick(quantisers));
    let n = c.levels.lows.len();
    let kinds: Vec<usize> = (0..n / 64).map(|_| r.below(5)).collect();
    let pair = |k: usize| match kinds[k / 64] {
        0 => [r.pick(&[-2047, 2047]); 2],
        1 => [-2047, 2047],
        2 => {
            let low = r.between(-2047, 2047);
            [low, r.between(low, 2047)]
        }
        3 => [if k % 2 == 0 { 2047 } else { -2047 }; 2],
        _ => [r.between(-60, 60); 2],
    };
    let pairs: Vec<[i64; 2]> = (0..n).map(pair).collect();
    c.levels = Levels::of(pairs.iter().map(|p| p[0] as i32).collect(), pairs.iter().map(|p| p[1] as i32).collect());
}

/// Any sheet with these weights and counts; most have extreme levels and tables, and most counts are the largest.
fn sheet(r: &mut Random, side: u32, weight: fn(&mut Random) -> Weight) -> Sheet {
    let mut sheet = legal(r, side, 20);
    sheet.counts = sheet.counts.map(|n| if r.one_in(3) { n } else { 20 });
    (sheet.smoothing, sheet.data) = ([0; 3].map(|_| weight(r)), [0; 3].map(|_| weight(r)));
    if !r.one_in(4) {
        sheet.channels.iter_mut().for_each(|c| extreme(r, c));
    }
    if r.one_in(2) {
        sheet.hold = None;
    }
    sheet.held_within()
}

/// Whether a channel is marked after any of the sheet's jobs.
fn blows(sheet: &Sheet) -> bool {
    runs(sheet).into_iter().any(|mut run| {
        while !run.is_done() && !run.is_blown() {
            run.step(|_, _, _| ());
        }
        run.is_blown()
    })
}

/// The answer of `smoother_solve` for a text.
fn solved(text: &[u8]) -> u32 {
    let (mut n, mut m, mut line) = (0, 0, 0);
    let measured = probe::measure(text, MOST, &mut n, &mut m, &mut line);
    let ([mut lows, mut highs], mut tables, mut numbers) =
        ([0; 2].map(|_| vec![0; n]), vec![0; m], vec![0; probe::NUMBERS]);
    let read = probe::read(text, MOST, 0, &mut lows, &mut highs, &mut tables, &mut numbers, &mut line);
    assert_eq!((measured, read), (0, 0), "a legal text");
    let all = (numbers[4] * numbers[0] * numbers[1]) as usize;
    let counts = if numbers[5] == 1 { &numbers[6..7] } else { &numbers[6..][..numbers[4] as usize] };
    let blends: u32 = counts.iter().sum();
    let mut six = [0; 6].map(|_| vec![f32::NAN; all]);
    let (mut clipped, mut totals) = (vec![0; numbers[4] as usize], vec![0.0; 2 * blends as usize]);
    probe::solve(&numbers, [&lows, &highs], &tables, &mut six, &mut clipped, &mut totals)
}

fn compare(count: u64, seed: u64, library: bool) -> ExitCode {
    println!("seed {seed}, {count} sheets");
    let (mut r, mut tally, mut met) = (Random::new(seed), Tally::default(), BTreeMap::<&str, u64>::new());
    for i in 0..count {
        let side = if i % 500 == 0 { 128 } else { r.pick(&[8, 16, 24, 32]) };
        let written = sheet(&mut r, side, mild_weight);
        let seen = &written;
        let kinds = [
            ("with ranges", seen.channels.iter().any(|c| !c.levels.are_equal())),
            ("with a held channel", seen.is_held()),
            ("reordered once", seen.reorders() == oracle::sheet::Reorder::Once),
            ("of three channels, joint", seen.joint && seen.channels.len() == 3),
            ("of three channels, separate", !seen.joint && seen.channels.len() == 3),
            ("with all weights 1", seen.weights().all(|w| w.value() == 1.0)),
            ("with a run of 20 steps", runs(seen).iter().any(|run| run.iterations == 20)),
        ];
        kinds.into_iter().filter(|(_, is)| *is).for_each(|(kind, _)| *met.entry(kind).or_default() += 1);
        let shown = || String::from_utf8_lossy(&written.text()).into_owned();
        tally.count_in("by the published Rust", !blows(seen), shown);
        if library {
            tally.count_in("by smoother_solve", solved(&written.text()) == 0, shown);
        }
    }
    met.iter().for_each(|(kind, times)| println!("sheets {kind}: {times}"));
    tally.close()
}

// ---- the smallest weights that blow

/// What is made small: the data weights with no smoothing of the second order, the smoothing weights with no data weights, or both at once.
const KINDS: [(&str, bool, bool); 3] = [("data", false, true), ("smoothing", true, false), ("both", true, true)];

fn with(sheet: &Sheet, bits: u32, (_, smoothing, data): (&str, bool, bool)) -> Sheet {
    let weights = |set: bool| [if set { Weight::Bits(bits) } else { Weight::Whole(0) }; 3];
    Sheet { smoothing: weights(smoothing), data: weights(data), ..sheet.clone() }
}

/// For each kind the smallest weight that blew some sheet: a sheet that blows just below the best so far is followed down by halving the bits between.
fn search(count: u64, seed: u64) -> ExitCode {
    println!("seed {seed}, {count} sheets of up to 20 steps");
    let mut r = Random::new(seed);
    for kind in KINDS {
        let (mut best, mut found) = (0x7f80_0000_u32, None);
        for i in 0..count {
            let side = if i % 200 == 0 { 128 } else { r.pick(&[8, 8, 16, 32]) };
            let one = Sheet { hold: None, ..sheet(&mut r, side, mild_weight) };
            if !blows(&with(&one, best - 1, kind)) {
                continue;
            }
            // it blows at `high`, and not at `low`
            let (mut low, mut high) = (0, best - 1);
            while high - low > 1 {
                let middle = low + (high - low) / 2;
                if blows(&with(&one, middle, kind)) { high = middle } else { low = middle }
            }
            (best, found) = (high, Some(with(&one, high, kind)));
        }
        match found {
            None => println!("{}: no weight blew", kind.0),
            Some(sheet) => {
                let value = f32::from_bits(best);
                println!("{}: h{best:08x}, {value:e}, about 2^{:.1}, by this sheet:", kind.0, value.log2());
                print!("{}", String::from_utf8_lossy(&sheet.text()));
            }
        }
    }
    ExitCode::SUCCESS
}
