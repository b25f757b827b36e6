//! Blend of the proved library beside the published `tv_gradient` and `tgv_gradient`: 512 by 512, three channels, smoothing weight 1, the same planes
//! for both, gradients and differences cleared before each round. Planes of four kinds: random values; whole numbers of two waves; 1 in 50 values is 1 and
//! the others 0; all 0. Prints for each kind the best and the median of ROUNDS (20) in milliseconds of the thread's processor time.
use artefact::{
    AlignedF32, Aux, PixelDifference,
    pipeline::open::{tgv_gradient, tv_gradient},
};
use oracle::{
    bench::{best_median, cpu_of},
    floats::{bits64, same},
    probe::probe_blend,
    random::Random,
};

const SIDE: usize = 512;
const COUNT: usize = SIDE * SIDE;
const WEIGHT: f32 = 1.0;
const KINDS: [&str; 4] = ["random", "smooth", "nearly flat", "flat"];

fn value(kind: usize, i: usize, r: &mut Random) -> f32 {
    let (x, y, c) = (i % SIDE, i / SIDE % SIDE, i / COUNT);
    match kind {
        0 => r.between(-128 << 8, 128 << 8) as f32 / 256.0,
        1 => (((x as f32 / 40.0).sin() + (y as f32 / (30 + c) as f32).cos()) * 50.0).round(),
        2 if r.between(0, 50) == 0 => 1.0,
        _ => 0.0,
    }
}

fn auxs_of(planes: &[f32]) -> Vec<Aux> {
    let zeros = || AlignedF32::zeros(COUNT);
    let aux = |plane: &[f32]| Aux {
        cos: AlignedF32::zeros(0),
        obj_gradient: zeros(),
        pixel_diff: PixelDifference { x: zeros(), y: zeros() },
        fdata: plane.to_vec().into(),
        fista: zeros(),
    };
    planes.chunks(COUNT).map(aux).collect()
}

fn compare(auxs: &[Aux], part: fn(&Aux) -> &[f32], ours: &[f32], what: &str) {
    let published = auxs.iter().flat_map(|aux| part(aux).iter());
    assert!(published.zip(ours).all(|(x, y)| same(*x, *y)), "the {what} differ");
}

fn bench(kind: usize, rounds: usize, r: &mut Random) {
    let planes: Vec<f32> = (0..3 * COUNT).map(|i| value(kind, i, r)).collect();
    let (mut rust, mut proved) = (vec![], vec![]);
    let [mut gradient, mut across, mut down] = [0; 3].map(|_| vec![1f32; 3 * COUNT]);
    for _ in 0..rounds {
        let (mut auxs, mut published) = (auxs_of(&planes), [0.0; 2]);
        rust.push(cpu_of(|| {
            let first = tv_gradient(SIDE as u32, SIDE as u32, 3, &mut auxs);
            published = [first, tgv_gradient(SIDE as u32, SIDE as u32, 3, &mut auxs, WEIGHT / 2.0_f32.sqrt())];
        }));
        for buffer in [&mut gradient, &mut across, &mut down] {
            buffer.fill(0.0);
        }
        let (n, side, mut totals) = (3 * COUNT, SIDE as u32, [0; 2]);
        proved.push(cpu_of(|| unsafe {
            let (g, a, d) = (gradient.as_mut_ptr(), across.as_mut_ptr(), down.as_mut_ptr());
            let t = totals.as_mut_ptr();
            probe_blend(planes.as_ptr(), n, g, n, a, n, d, n, 3, side, side, 10, WEIGHT, 0, t, 2);
        }));
        compare(&auxs, |aux| &aux.obj_gradient, &gradient, "gradients");
        compare(&auxs, |aux| &aux.pixel_diff.x, &across, "differences across");
        compare(&auxs, |aux| &aux.pixel_diff.y, &down, "differences down");
        assert_eq!(published.map(bits64), totals, "the totals differ");
    }
    let ((p, p_median), (q, q_median)) = (best_median(rust), best_median(proved));
    println!(
        "{}: published {:.1} ms (median {:.1}), proved {:.1} ms (median {:.1}), ratio {:.2} (of the medians {:.2})",
        KINDS[kind],
        p * 1e3,
        p_median * 1e3,
        q * 1e3,
        q_median * 1e3,
        q / p,
        q_median / p_median
    );
}

fn main() {
    let rounds: usize = std::env::args().nth(1).map_or(20, |a| a.parse().expect("a whole number"));
    let mut r = Random::new(1);
    (0..KINDS.len()).for_each(|kind| bench(kind, rounds, &mut r));
}
