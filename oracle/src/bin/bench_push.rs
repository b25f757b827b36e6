//! Push of the proved library beside the published loop: 512 by 512, three channels, planes and priors of the same random values for both, made anew
//! before each round. Prints the best and the median of ROUNDS (200) in milliseconds of the thread's processor time.
use artefact::{AlignedF32, Aux, PixelDifference};
use oracle::{
    bench::{best_median, cpu_of},
    floats::same,
    probe::probe_push,
    random::Random,
    run::{Run, push},
};

const SIDE: u32 = 512;
const COUNT: usize = (SIDE * SIDE) as usize;
const ITERATIONS: u32 = 20;
const STEP: u32 = 10;

fn main() {
    let rounds: usize = std::env::args().nth(1).map_or(200, |a| a.parse().expect("a whole number"));
    let mut r = Random::new(1);
    let [planes, priors] =
        [0; 2].map(|_| -> Vec<f32> { (0..3 * COUNT).map(|_| r.between(-128 << 8, 128 << 8) as f32 / 256.0).collect() });
    let none = || AlignedF32::zeros(0);
    let aux = |c: usize| Aux {
        cos: none(),
        obj_gradient: none(),
        pixel_diff: PixelDifference { x: none(), y: none() },
        fdata: planes[c * COUNT..(c + 1) * COUNT].to_vec().into(),
        fista: priors[c * COUNT..(c + 1) * COUNT].to_vec().into(),
    };
    let run = Run::on(SIDE, SIDE, ITERATIONS as usize, vec![], 1.0, [0.0; 3], vec![]);
    let factor = run.constants_of(STEP as usize).factor;
    let (mut rust, mut proved) = (vec![], vec![]);
    for _ in 0..rounds {
        let mut auxs: Vec<Aux> = (0..3).map(aux).collect();
        rust.push(cpu_of(|| auxs.iter_mut().for_each(|aux| push(aux, COUNT, factor))));
        let (mut plane, mut prior) = (planes.clone(), priors.clone());
        proved.push(cpu_of(|| {
            for c in 0..3 {
                let (p, q) = (plane[c * COUNT..].as_mut_ptr(), prior[c * COUNT..].as_mut_ptr());
                unsafe { probe_push(p, COUNT, q, COUNT, SIDE, SIDE, ITERATIONS, 1.0, STEP) };
            }
        }));
        let published = auxs.iter().flat_map(|aux| aux.fdata.iter());
        assert!(published.zip(&plane).all(|(x, y)| same(*x, *y)), "the planes differ");
        let published = auxs.iter().flat_map(|aux| aux.fista.iter());
        assert!(published.zip(&prior).all(|(x, y)| same(*x, *y)), "the priors differ");
    }
    let ((p, p_median), (q, q_median)) = (best_median(rust), best_median(proved));
    println!(
        "published {:.2} ms (median {:.2}), proved {:.2} ms (median {:.2}), ratio {:.1}",
        p * 1e3,
        p_median * 1e3,
        q * 1e3,
        q_median * 1e3,
        q / p
    );
}
