//! The proved jobs beside the published ones: all six buffers and the condition of job 5 after start and after each job, bit for bit, the totals of
//! each blend, and how many coefficients each project moved.
//!
//!     jobs [SEED [COUNT]]     COUNT sheets (2,400) of sides up to 64, job after job; as many with other values in the buffers before each
//!                             job; and eight of 512 by 512
//!     jobs --faults           plants wrong values, in one buffer after another, and wrong marks, and fails unless each is reported
use oracle::{
    floats::{any, at, bits, bits64, same, special, subnormal},
    jobs::{self, JOBS, Lent},
    random::Random,
    run::{Run, runs},
    sheet::{Channel, Reorder, Sheet, Weight},
    tally::Tally,
    texts::{WEIGHTS, legal},
};
use std::{collections::BTreeMap, process::ExitCode};

fn main() -> ExitCode {
    let args: Vec<String> = std::env::args().skip(1).collect();
    let number = |i: usize, default: u64| args.get(i).map_or(default, |a| a.parse().expect("a whole number"));
    match args.first().map(String::as_str) {
        Some("--faults") => faults(),
        _ => {
            let (seed, count) = (number(0, 1), number(1, 2_400));
            println!("seed {seed}, {count} sheets");
            let (mut r, mut all) = (Random::new(seed), Compare::default());
            compare(&mut all, &mut r, count);
            for one in LARGE {
                let sheet = large(&mut r, one);
                all.sheet("512 by 512", &sheet, f32::NAN);
            }
            all.met.iter().for_each(|(what, times)| println!("{what}: {times}"));
            println!("{} values", all.values);
            all.tally.close()
        }
    }
}

/// Kinds of sheets; the number tells which of its kind it is.
/// The probe's jobs know no held channels (M-108): `calls` and `planes` compare those.
const KINDS: [(&str, fn(&mut Random, usize) -> Sheet); 4] = [
    ("sheets", |r, _| free(r, 64)),
    ("covers", covers),
    ("weights", |r, _| Sheet {
        smoothing: [0; 3].map(|_| r.pick(&WEIGHTS)),
        data: [0; 3].map(|_| r.pick(&WEIGHTS)),
        ..free(r, 64)
    }),
    ("levels", |r, _| {
        let mut sheet = free(r, 64);
        sheet.channels.iter_mut().for_each(|c| extreme(r, c));
        sheet
    }),
];

fn free(r: &mut Random, side: u32) -> Sheet {
    Sheet { hold: None, marks: vec![], ..legal(r, side, 30) }
}

/// Three channels, all pairs of factors in turn, whose own sides cover as much as they can or a part; levels as pictures have them.
fn covers(r: &mut Random, i: usize) -> Sheet {
    let sides = [0; 2].map(|_| 8 * r.between(4, 8) as u32);
    let mut channel = |k: usize| {
        let factors = [k % 4 + 1, k / 4 % 4 + 1].map(|factor| factor as u32);
        let [w, h] = [0, 1].map(|d| {
            let most = sides[d] / 8 / factors[d];
            8 * if r.one_in(2) { most } else { r.between(1, most.into()) as u32 }
        });
        let table = (0..64).map(|_| r.between(1, 255) as u32).collect();
        let levels = (0..w * h).map(|_| if r.one_in(3) { r.between(-60, 60) as i32 } else { 0 }).collect();
        Channel { w, h, across: factors[0], down: factors[1], table, levels }
    };
    let channels = (3 * i..3 * i + 3).map(&mut channel).collect();
    Sheet { w: sides[0], h: sides[1], channels, ..free(r, 8) }
}

fn extreme(r: &mut Random, c: &mut Channel) {
    let (levels, quantisers) =
        (r.pick(&[&[-2047, 2047][..], &[2047], &[-2047, 0, 0, 1]]), r.pick(&[&[1, 255][..], &[1], &[255]]));
    c.levels = c.levels.lows.iter().map(|_| r.pick(levels)).collect();
    c.table.iter_mut().for_each(|quantiser| *quantiser = r.pick(quantisers));
}

type Make = fn(&mut Random) -> f32;

/// Values for lent buffers that no run reaches, or few.
const VALUES: [(&str, Make); 8] = [
    ("samples", |r| r.between(-128 << 16, 128 << 16) as f32 / 65536.0),
    ("small whole numbers", |r| r.between(-2, 2) as f32),
    ("signed zeros", |r| r.pick(&[0.0, -0.0, 0.0, -0.0, 1.0])),
    ("comparable sizes", |r| {
        let e = r.between(-3, 3);
        at(r, e)
    }),
    ("huge", |r| if r.one_in(9) { at(r, 126) } else { at(r, 60) }),
    ("subnormal", subnormal),
    ("any size", any),
    ("infinities and NaNs", |r| if r.one_in(200) { special(r) } else { at(r, 3) }),
];

#[derive(Default)]
struct Compare {
    tally: Tally,
    values: u64,
    met: BTreeMap<&'static str, u64>,
    /// A wrong answer of the proved side, planted to see that it is reported: which, a buffer's name, `blown`, `totals` or `clipped`, and how often.
    fault: &'static str,
    planted: u64,
}

impl Compare {
    fn met(&mut self, what: &'static str, times: u64) {
        *self.met.entry(what).or_default() += times;
    }

    /// Both sides after a job, in channel c.
    fn look(&mut self, kind: &str, job: &str, run: &Run, lent: &Lent, c: usize) {
        let buffers = run.buffers(c);
        let row = format!("{kind}: {job}");
        for (k, (name, rust)) in buffers.iter().enumerate() {
            let mut proved = lent.part(k, c).to_vec();
            assert_eq!(rust.len(), proved.len());
            if *name == self.fault {
                let last = proved.last_mut().expect("a value");
                let other = f32::from_bits(last.to_bits() ^ 1);
                self.planted += u64::from(!same(*last, other));
                *last = other;
            }
            self.values += rust.len() as u64;
            let first = (0..rust.len()).find(|i| !same(rust[*i], proved[*i]));
            self.tally.count_in(&row, first.is_none(), || {
                let i = first.expect("a difference");
                let (x, y) = (bits(rust[i]), bits(proved[i]));
                format!("channel {c}, {name} at {i}: Rust's {x:08x}, proved {y:08x}, position {}", run.positions[c])
            });
        }
        let planted = self.fault == "blown";
        self.planted += u64::from(planted);
        let equal = is_blown(&buffers, lent.own_count(c)) == (lent.is_blown(c) != planted);
        self.tally.count_in(&format!("{kind}: blown"), equal, || format!("channel {c} after {job}"));
    }

    /// The totals of the blend just done on both sides.
    fn totals(&mut self, kind: &str, run: &Run, lent: &Lent) {
        let (rust, mut proved) = (run.totals.map(bits64), lent.totals);
        if self.fault == "totals" {
            proved[1] ^= 1;
            self.planted += 1;
        }
        self.met("totals that are 0", rust.iter().filter(|x| **x == 0).count() as u64);
        self.met("totals that are infinite", run.totals.iter().filter(|x| x.is_infinite()).count() as u64);
        self.met("totals that are NaN", run.totals.iter().filter(|x| x.is_nan()).count() as u64);
        self.tally.count_in(&format!("{kind}: totals"), rust == proved, || {
            format!("Rust's {rust:016x?}, proved {proved:016x?}, position {}", run.positions[0])
        });
    }

    /// The number of the project just done on both sides, in channel c.
    fn clipped(&mut self, kind: &str, run: &Run, lent: &Lent, c: usize) {
        let planted = self.fault == "clipped";
        self.planted += u64::from(planted);
        let (due, number) = (run.clipped[c], lent.clipped ^ u32::from(planted));
        self.met("projects that moved coefficients", (due > 0).into());
        self.met("coefficients moved", due.into());
        self.tally.count_in(&format!("{kind}: clipped"), due == number, || {
            format!("channel {c}: own count {due}, proved {number}, position {}", run.positions[c])
        });
    }

    /// A sheet's runs, job after job, on after a mark as `solve` does.
    fn sheet(&mut self, kind: &str, sheet: &Sheet, fill: f32) {
        let alone = sheet.channels.len() == 1;
        self.met(
            if alone {
                "sheets of one channel"
            } else if sheet.joint {
                "sheets of three, joint"
            } else {
                "sheets of three, separate"
            },
            1,
        );
        for c in &sheet.channels {
            self.met("channels", 1);
            self.met("channels with a factor", (c.across * c.down > 1).into());
            self.met("channels covering a part", (c.w * c.across < sheet.w || c.h * c.down < sheet.h).into());
            self.met("channels with ranges", (!c.levels.are_equal()).into());
            let once = sheet.reorders() == Reorder::Once && c.w > 8;
            self.met("channels wider than 8, reordered once", once.into());
        }
        for (mut run, mut lent) in runs(sheet).into_iter().zip(jobs::runs(sheet, fill)) {
            for c in 0..run.channels() {
                lent.job("start", c, 0);
                self.look(kind, "start", &run, &lent, c);
            }
            while !run.is_done() {
                let step = run.positions[0] / 5;
                self.met("steps", 1);
                run.step(|run, job, c| {
                    if job != "blend" || c == 0 {
                        lent.job(job, c, step);
                    }
                    if job == "blend" && c == 0 {
                        self.totals(kind, run, &lent);
                    }
                    self.look(kind, job, run, &lent, c);
                    if job == "project" {
                        self.clipped(kind, run, &lent, c);
                        self.met("marks after project", run.marks[c].into());
                        self.tally.count_in("marks", run.marks[c] == lent.is_blown(c), || kind.into());
                    }
                });
            }
            self.met("runs with a mark at the end", run.is_blown().into());
            if run.w < 512 {
                self.tally.count_in("planes at the end as `solve` has them", run.check(), || kind.into());
            }
        }
    }

    /// Each job by itself, with other values in all buffers before it.
    fn values(&mut self, r: &mut Random, sheet: &Sheet, make: Make) {
        for (mut run, mut lent) in runs(sheet).into_iter().zip(jobs::runs(sheet, 0.0)) {
            let (channels, step) = (0..run.channels(), r.below(30));
            run.holds.fill(usize::MAX);
            for job in &JOBS[1..] {
                for c in channels.clone().take(if *job == "blend" { 1 } else { 3 }) {
                    fill(&mut run, &mut lent, |_, n| (0..n).map(|_| make(r)).collect());
                    rust(&mut run, job, c, step);
                    lent.job(job, c, step);
                    if *job == "blend" {
                        self.totals("other buffers", &run, &lent);
                    }
                    if *job == "project" {
                        self.clipped("other buffers", &run, &lent, c);
                    }
                    channels.clone().for_each(|c| self.look("other buffers", job, &run, &lent, c));
                }
            }
        }
    }
}

/// The condition of job 5, with as many saved coefficients as the channel has.
fn is_blown(buffers: &[(&str, Vec<f32>); 6], own: usize) -> bool {
    let ([plane, .., saved], finite) = (buffers, |x: &f32| x.is_finite());
    !(plane.1.iter().all(finite) && saved.1[..own].iter().all(finite))
}

/// Other values on both sides, from a function of the buffer's number and its length. Saved is 0 past the own sides' places.
fn fill(run: &mut Run, lent: &mut Lent, mut give: impl FnMut(usize, usize) -> Vec<f32>) {
    let n = lent.count();
    for k in 0..6 {
        let mut values = give(k, n * run.channels());
        for (c, aux) in run.auxs.iter_mut().enumerate() {
            let part = &mut values[c * n..(c + 1) * n];
            let to = match k {
                0 => &mut aux.fdata,
                1 => &mut aux.fista,
                2 => &mut aux.obj_gradient,
                3 => &mut aux.pixel_diff.x,
                4 => &mut aux.pixel_diff.y,
                _ => {
                    part[lent.own_count(c)..].fill(0.0);
                    &mut aux.cos
                }
            };
            let length = to.len();
            to.copy_from_slice(&part[..length]);
        }
        lent.buffers[k] = values;
    }
}

fn rust(run: &mut Run, job: &str, c: usize, step: usize) {
    let k = run.constants_of(step);
    match job {
        "push" => run.push(c, k.factor),
        "data" => run.data(c),
        "blend" => run.blend(k.second_order_weight),
        "move" => run.move_plane(c, k.step_size),
        "project" => run.project(c),
        _ => assert_eq!(job, "start"),
    }
}

/// 512 by 512: own side and factor by channel, mode, steps, weight, how start reorders.
type Large = (&'static [(u32, u32)], bool, u32, Weight, Reorder);

const LARGE: [Large; 8] = [
    (&[(512, 1)], false, 3, Weight::Whole(1), Reorder::Each),
    (&[(512, 1), (512, 1), (512, 1)], true, 2, Weight::Whole(1), Reorder::Each),
    (&[(512, 1), (256, 2), (256, 2)], true, 3, Weight::Bits(0x3e99_999a), Reorder::Each),
    (&[(512, 1), (128, 4), (168, 3)], false, 2, Weight::Whole(255), Reorder::Each),
    (&[(128, 3), (120, 4), (240, 2)], true, 3, Weight::Bits(0x0000_0001), Reorder::Once),
    (&[(256, 2)], true, 2, Weight::Bits(0x7f00_0000), Reorder::Each),
    (&[(512, 1), (256, 2), (256, 2)], true, 2, Weight::Bits(0x3e99_999a), Reorder::Once),
    (&[(512, 1), (128, 4), (168, 3)], false, 1, Weight::Whole(1), Reorder::Once),
];

fn large(r: &mut Random, (owns, joint, count, weight, reorder): Large) -> Sheet {
    let mut channel = |&(side, factor): &(u32, u32)| Channel {
        w: side,
        h: side,
        across: factor,
        down: factor,
        table: (0..64).map(|_| r.between(1, 99) as u32).collect(),
        levels: (0..side * side).map(|_| if r.one_in(4) { r.between(-9, 9) as i32 } else { 0 }).collect(),
    };
    let channels = owns.iter().map(&mut channel).collect();
    let (w, weights) = (512, [weight; 3]);
    Sheet {
        w,
        h: w,
        picture_w: w,
        picture_h: w,
        joint,
        counts: [count; 3],
        smoothing: weights,
        data: weights,
        rounding: None,
        reorder: Some(reorder),
        hold: None,
        marks: vec![],
        channels,
    }
}

fn compare(all: &mut Compare, r: &mut Random, count: u64) {
    for (i, (kind, make)) in (0..count as usize).map(|i| (i, KINDS[i % KINDS.len()])) {
        let (sheet, left_over) = (make(r, i / KINDS.len()), any(r));
        all.sheet(kind, &sheet, left_over);
    }
    for i in 0..count as usize {
        let (_, make) = KINDS[i % KINDS.len()];
        let sheet = make(r, i / KINDS.len());
        all.values(r, &sheet, VALUES[i / KINDS.len() % VALUES.len()].1);
    }
}

const FAULTS: [&str; 9] = ["plane", "prior", "gradient", "across", "down", "saved", "blown", "totals", "clipped"];

/// Each has to be reported as often as it was planted, at least once.
fn faults() -> ExitCode {
    let mut missed = vec![];
    for fault in FAULTS {
        let mut all = Compare { fault, ..Compare::default() };
        compare(&mut all, &mut Random::new(1), 16);
        println!("{fault}: planted {}, reported {}", all.planted, all.tally.differ());
        if all.planted == 0 || all.planted != all.tally.differ() {
            missed.push(fault);
        }
    }
    println!("{} kinds of fault planted, {} missed: {missed:?}", FAULTS.len(), missed.len());
    u8::from(!missed.is_empty()).into()
}
