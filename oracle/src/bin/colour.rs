//! Writes the sheet samples/colour.tsv: a drawing of a sunset, 32 by 32, as a JPEG at medium quality would hold it.
//!
//!     colour [SEED]       prints it; the sample has seed 1, which shapes the hills
//!
//! Luma is whole, both chroma channels have factors 2 across and down; joint mode, 20 steps, the published default weights.
use oracle::{
    random::Random,
    sheet::{Channel, Sheet, Weight},
};
use std::{
    f64::consts::PI,
    io::{Write, stdout},
};

const SIDE: usize = 32;

/// Tables K.1 and K.2 of T.81.
const LUMA: [u32; 64] = [
    16, 11, 10, 16, 24, 40, 51, 61, 12, 12, 14, 19, 26, 58, 60, 55, 14, 13, 16, 24, 40, 57, 69, 56, 14, 17, 22, 29, 51,
    87, 80, 62, 18, 22, 37, 56, 68, 109, 103, 77, 24, 35, 55, 64, 81, 104, 113, 92, 49, 64, 78, 87, 103, 121, 120, 101,
    72, 92, 95, 98, 112, 100, 103, 99,
];
const CHROMA: [u32; 64] = [
    17, 18, 24, 47, 99, 99, 99, 99, 18, 21, 26, 66, 99, 99, 99, 99, 24, 26, 56, 99, 99, 99, 99, 99, 47, 66, 99, 99, 99,
    99, 99, 99, 99, 99, 99, 99, 99, 99, 99, 99, 99, 99, 99, 99, 99, 99, 99, 99, 99, 99, 99, 99, 99, 99, 99, 99, 99, 99,
    99, 99, 99, 99, 99, 99,
];

type Colour = [f64; 3];

fn between(a: Colour, b: Colour, t: f64) -> Colour {
    std::array::from_fn(|i| a[i] + (b[i] - a[i]) * t.clamp(0.0, 1.0))
}

/// A sky that turns from blue to orange, a sun, and two rows of hills.
fn drawing(seed: u64) -> Vec<Colour> {
    let mut r = Random::new(seed);
    let mut hills = |height: f64, swing: i64| {
        let phases = [0; 3].map(|_| r.between(0, 628) as f64 / 100.0);
        let sizes = [0; 3].map(|_| r.between(swing / 2, swing) as f64);
        move |x: f64| {
            height + (0..3).map(|k| sizes[k] * (x * (k + 1) as f64 * 0.16 + phases[k]).sin() / 2.0).sum::<f64>()
        }
    };
    let (far, near) = (hills(20.0, 3), hills(26.0, 4));
    let pixel = |i: usize| {
        let (x, y) = ((i % SIDE) as f64, (i / SIDE) as f64);
        let sky = between([40.0, 70.0, 170.0], [255.0, 170.0, 90.0], y / 20.0);
        let from_sun = ((x - 21.0).powi(2) + (y - 12.0).powi(2)).sqrt();
        let sunny = between([255.0, 245.0, 170.0], sky, from_sun - 5.0);
        let hazy = between(sunny, [110.0, 80.0, 120.0], y - far(x));
        between(hazy, [25.0, 70.0, 35.0], y - near(x))
    };
    (0..SIDE * SIDE).map(pixel).collect()
}

/// The levels of a plane of any side, block by block.
fn levels(plane: &[f64], side: usize, table: &[u32; 64]) -> Vec<i32> {
    let size = |k: usize| if k == 0 { (1.0_f64 / 8.0).sqrt() } else { 0.5 };
    let wave = |k: usize, x: usize| size(k) * ((2 * x + 1) as f64 * k as f64 * PI / 16.0).cos();
    let blocks = (0..side / 8).flat_map(|down| (0..side / 8).map(move |across| (down, across)));
    blocks
        .flat_map(|(down, across)| {
            (0..64).map(move |i| {
                let (v, u) = (i / 8, i % 8);
                let places = (0..64).map(|j| (j / 8, j % 8));
                let sum: f64 =
                    places.map(|(y, x)| plane[(8 * down + y) * side + 8 * across + x] * wave(v, y) * wave(u, x)).sum();
                (sum / f64::from(table[i])).round() as i32
            })
        })
        .collect()
}

fn main() {
    let seed = std::env::args().nth(1).map_or(1, |a| a.parse().expect("a whole number"));
    let drawing = drawing(seed);
    let part = |weights: Colour, shift: f64| -> Vec<f64> {
        drawing.iter().map(|p| (0..3).map(|i| weights[i] * p[i]).sum::<f64>() - shift).collect()
    };
    let half = |plane: Vec<f64>| -> Vec<f64> {
        let at = |i: usize| 2 * (i / (SIDE / 2)) * SIDE + 2 * (i % (SIDE / 2));
        let mean = |i| (plane[i] + plane[i + 1] + plane[i + SIDE] + plane[i + SIDE + 1]) / 4.0;
        (0..SIDE * SIDE / 4).map(|i| mean(at(i))).collect()
    };
    let channel = |plane: Vec<f64>, factor: usize, table: &[u32; 64]| {
        let side = SIDE / factor;
        let (own, factor) = (side as u32, factor as u32);
        Channel {
            w: own,
            h: own,
            across: factor,
            down: factor,
            table: table.to_vec(),
            levels: levels(&plane, side, table).into(),
        }
    };
    // the conversion of JPEG files (T.871)
    let luma = part([0.299, 0.587, 0.114], 128.0);
    let blue = half(part([-0.168_735_9, -0.331_264_1, 0.5], 0.0));
    let red = half(part([0.5, -0.418_687_6, -0.081_312_4], 0.0));
    let side = SIDE as u32;
    let sheet = Sheet {
        w: side,
        h: side,
        picture_w: side,
        picture_h: side,
        joint: true,
        counts: [20; 3],
        smoothing: [Weight::Bits(0.3_f32.to_bits()); 3],
        data: [Weight::Bits(0.001_f32.to_bits()); 3],
        rounding: None,
        reorder: None,
        hold: None,
        marks: vec![],
        channels: vec![channel(luma, 1, &LUMA), channel(blue, 2, &CHROMA), channel(red, 2, &CHROMA)],
    };
    stdout().write_all(&sheet.text()).expect("standard output");
}
