//! Start, data, move and project of the proved library beside the published code, one channel that covers the sheet: random levels and quantisers, a plane,
//! a gradient and saved coefficients of random values, the same for both and made anew before each round. Project is with the test for a blown channel.
//!
//!     bench_jobs [ROUNDS]     data, move and project at 512 by 512: best and median of ROUNDS (25) in milliseconds of the thread's processor time
//!     bench_jobs --start [N]  the start at 64, 128, 256 and 512, both letters of line A: best of N (5), and nanoseconds a value of the proved one
//!
//! What the two leave is compared in every round, bit for bit.
use artefact::{
    AlignedF32, Aux,
    pipeline::open::{
        Coefficient, ScalarCoef, auxiliary::PixelDifference, blocks::from_blocks, dct::idct8x8, dct_gradient,
        project_onto_box,
    },
};
use oracle::{
    bench::{best_median, cpu_of},
    floats::same,
    probe::{probe_blown, probe_data, probe_move, probe_project, probe_start},
    published::each,
    random::Random,
    run::{Run, descend},
    sheet::{Channel, Levels},
};

const WEIGHT: f32 = 0.005;
const ITERATIONS: u32 = 10;

/// A channel whose sides are the sheet's.
fn channel(r: &mut Random, side: usize) -> Channel {
    let levels: Vec<i32> = (0..side * side).map(|_| r.between(-9, 9) as i32).collect();
    let table = (0..64).map(|_| r.between(1, 99) as u32).collect();
    let sides = side as u32;
    Channel {
        w: sides,
        h: sides,
        across: 1,
        down: 1,
        table,
        levels: Levels { lows: levels.clone(), highs: levels, ranged: vec![false; side * side / 64] },
    }
}

/// What the proved calls are lent of a channel.
struct Lent {
    side: usize,
    levels: Vec<i16>,
    table: Vec<u16>,
}

impl Lent {
    fn of(own: &Channel) -> Self {
        let levels = own.levels.lows.iter().map(|n| *n as i16).collect();
        Self { side: own.w as usize, levels, table: own.table.iter().map(|n| *n as u16).collect() }
    }

    fn count(&self) -> usize {
        self.side * self.side
    }

    fn start(&self, six: &mut [Vec<f32>; 6], letter: u32) {
        let [plane, prior, gradient, across, down, saved] = six.each_mut().map(|buffer| buffer.as_mut_ptr());
        let (n, s, levels) = (self.count(), self.side, self.levels.as_ptr());
        unsafe {
            probe_start(
                plane,
                n,
                prior,
                n,
                gradient,
                n,
                across,
                n,
                down,
                n,
                saved,
                n,
                s,
                s,
                1,
                1,
                s,
                s,
                letter,
                levels,
                n,
                levels,
                n,
                self.table.as_ptr(),
                64,
            );
        }
    }

    fn data(&self, saved: &[f32], gradient: &mut [f32]) {
        let (n, s, levels) = (self.count(), self.side, self.levels.as_ptr());
        unsafe {
            probe_data(
                saved.as_ptr(),
                n,
                gradient.as_mut_ptr(),
                n,
                s,
                s,
                1,
                1,
                s,
                s,
                WEIGHT,
                levels,
                n,
                levels,
                n,
                self.table.as_ptr(),
                64,
            );
        }
    }

    fn step(&self, plane: &mut [f32], gradient: &[f32]) {
        let (n, s) = (self.count(), self.side as u32);
        unsafe { probe_move(plane.as_mut_ptr(), n, gradient.as_ptr(), n, s, s, ITERATIONS, 1.0, 3) };
    }

    /// And whether the channel is blown.
    fn project(&self, [plane, across, down, saved]: [&mut [f32]; 4]) -> bool {
        let (n, s, levels) = (self.count(), self.side, self.levels.as_ptr());
        unsafe {
            probe_project(
                plane.as_mut_ptr(),
                n,
                across.as_mut_ptr(),
                n,
                down.as_mut_ptr(),
                n,
                saved.as_mut_ptr(),
                n,
                s,
                s,
                1,
                1,
                s,
                s,
                levels,
                n,
                levels,
                n,
                self.table.as_ptr(),
                64,
            );
            probe_blown(plane.as_ptr(), n, saved.as_ptr(), n, n) != 0
        }
    }
}

fn equal(a: &[f32], b: &[f32], what: &str) {
    assert!(a.len() == b.len() && a.iter().zip(b).all(|(x, y)| same(*x, *y)), "the {what} differ");
}

fn told(what: &str, rust: Vec<f64>, proved: Vec<f64>) -> f64 {
    let ((p, p_median), (q, q_median)) = (best_median(rust), best_median(proved));
    println!(
        "{what}: published {:.3} ms (median {:.3}), proved {:.3} ms (median {:.3}), ratio {:.3} (of the medians {:.3})",
        p * 1e3,
        p_median * 1e3,
        q * 1e3,
        q_median * 1e3,
        q / p,
        q_median / p_median
    );
    q
}

/// The published conversion with its repeated reordering, or the one reordering over the published functions.
fn image(given: &Coefficient, once: bool) -> Vec<f32> {
    let mut blocks: Vec<f32> =
        given.dct_coefs.iter().zip(given.quant_table.iter().cycle()).map(|(d, q)| d * q).collect();
    if !once {
        return ScalarCoef::from(copy(given)).image_data;
    }
    blocks.chunks_mut(64).for_each(|block| idct8x8(block.try_into().expect("64 values")));
    let mut image = vec![0.0; blocks.len()];
    from_blocks(&blocks, &mut image, given.rounded_px_w, given.rounded_px_h, given.block_w, given.block_h);
    image
}

fn copy(c: &Coefficient) -> Coefficient {
    Coefficient { dct_coefs: c.dct_coefs.clone(), quant_table: c.quant_table, ..*c }
}

fn bench_start(rounds: usize) {
    let mut r = Random::new(1);
    for side in [64, 128, 256, 512] {
        let own = channel(&mut r, side);
        let (given, lent) = (each::coefficient(&own), Lent::of(&own));
        for (letter, name) in [(0, "m"), (1, "o")] {
            let (mut rust, mut proved) = (vec![], vec![]);
            for _ in 0..rounds {
                let mut published = vec![];
                rust.push(cpu_of(|| published = image(&given, letter == 1)));
                let mut six = [0; 6].map(|_| vec![7f32; side * side]);
                proved.push(cpu_of(|| lent.start(&mut six, letter)));
                equal(&published, &six[0], "starts");
            }
            let best = told(&format!("start, {side} by {side}, {name}"), rust, proved);
            println!("    {:.1} ns a value", best * 1e9 / (side * side) as f64);
        }
    }
}

fn bench(rounds: usize) {
    const SIDE: usize = 512;
    const COUNT: usize = SIDE * SIDE;
    let mut r = Random::new(5);
    let own = channel(&mut r, SIDE);
    let lent = Lent::of(&own);
    let coef = ScalarCoef { image_data: vec![], ..ScalarCoef::from(each::coefficient(&own)) };
    let mut values =
        |scale: f32| -> Vec<f32> { (0..COUNT).map(|_| r.between(-128 << 8, 128 << 8) as f32 / scale).collect() };
    let [plane, gradient, noise] = [256.0, 9256.0, 20_000.0].map(&mut values);
    let level = |k: usize| lent.levels[k] as f32 * f32::from(lent.table[k % 64]);
    let saved: Vec<f32> = noise.iter().enumerate().map(|(k, x)| level(k) + x).collect();
    let alpha = WEIGHT * 2.0 * 255.0 * 2.0_f32.sqrt();
    let step_size =
        Run::on(SIDE as u32, SIDE as u32, ITERATIONS as usize, vec![], 1.0, [0.0; 3], vec![]).constants_of(3).step_size;
    let mut times = [(); 3].map(|()| (vec![], vec![]));
    for _ in 0..rounds {
        let [data, movement, project] = &mut times;
        let (mut published, mut ours) = (AlignedF32::zeros(0), vec![1f32; COUNT]);
        data.0.push(cpu_of(|| {
            published = AlignedF32::zeros(COUNT);
            dct_gradient(SIDE as u32, SIDE as u32, alpha, &coef, &saved, &mut published);
        }));
        data.1.push(cpu_of(|| lent.data(&saved, &mut ours)));
        equal(&published, &ours, "data gradients");

        let (mut aux, mut ours) = (aux_of(&plane, &gradient), plane.clone());
        movement.0.push(cpu_of(|| descend(&mut aux, COUNT, step_size)));
        movement.1.push(cpu_of(|| lent.step(&mut ours, &gradient)));
        equal(&aux.fdata, &ours, "moved planes");

        let (mut aux, mut blown) = (aux_of(&plane, &gradient), true);
        project.0.push(cpu_of(|| {
            project_onto_box(SIDE as u32, SIDE as u32, &mut aux, &coef);
            blown = !aux.fdata.iter().chain(aux.cos.iter()).all(|x| x.is_finite());
        }));
        let [mut ours, mut across, mut down, mut kept] = [&plane, &noise, &noise, &saved].map(Clone::clone);
        let mut ours_blown = true;
        project.1.push(cpu_of(|| ours_blown = lent.project([&mut ours, &mut across, &mut down, &mut kept])));
        equal(&aux.fdata, &ours, "projected planes");
        equal(&aux.cos, &kept, "saved coefficients");
        assert_eq!(blown, ours_blown);
    }
    for (name, (rust, proved)) in ["data", "move", "project and the test for a blown channel"].iter().zip(times) {
        told(name, rust, proved);
    }
}

fn aux_of(plane: &[f32], gradient: &[f32]) -> Aux {
    let zeros = || AlignedF32::zeros(plane.len());
    Aux {
        cos: zeros(),
        obj_gradient: gradient.to_vec().into(),
        pixel_diff: PixelDifference { x: zeros(), y: zeros() },
        fdata: plane.to_vec().into(),
        fista: zeros(),
    }
}

fn main() {
    let args: Vec<String> = std::env::args().skip(1).collect();
    let number = |i: usize, default: usize| args.get(i).map_or(default, |a| a.parse().expect("a whole number"));
    match args.first().map(String::as_str) {
        Some("--start") => bench_start(number(1, 5)),
        _ => bench(number(0, 25)),
    }
}
