//! The projection of levels that are known only within a range (M-105), written beside the unchanged `project_onto_box`: its statements with other ends.
use artefact::{
    Aux,
    pipeline::open::{
        ScalarCoef,
        blocks::{from_blocks, to_blocks},
        dct::{dct8x8, idct8x8},
    },
};

/// "The interval runs from (2 × low − 1) × q / 2 to (2 × high + 1) × q / 2": both exact in f32.
fn ends((low, high): (i32, i32), quantiser: u32) -> (f32, f32) {
    let half = |n: i32| (n * quantiser as i32) as f32 / 2.0;
    (half(2 * low - 1), half(2 * high + 1))
}

/// "block places where the transformed value lay outside its interval": all is exact in f64. A NaN is neither below nor above (M-104).
pub fn outside(x: f32, (low, high): (i32, i32), quantiser: u32) -> bool {
    let (twice, low, high, quantiser) = (2.0 * f64::from(x), f64::from(low), f64::from(high), f64::from(quantiser));
    twice < (2.0 * low - 1.0) * quantiser || twice > (2.0 * high + 1.0) * quantiser
}

/// A level of the range with the value in its interval; where the value lies outside the range's, the end next to it.
pub fn nearest(x: f32, (low, high): (i32, i32), quantiser: u32) -> i32 {
    if x.is_nan() {
        return low;
    }
    let near = (f64::from(x) / f64::from(quantiser)).clamp(-3e3, 3e3).round() as i32;
    let held = |d: &i32| !outside(x, (*d, *d), quantiser);
    (near - 1..=near + 1).map(|d| d.clamp(low, high)).find(held).unwrap_or_else(|| near.clamp(low, high))
}

/// The statements of `project_onto_box`, with the ends of a range.
pub fn project_onto_ranges(w: u32, h: u32, aux: &mut Aux, coef: &ScalarCoef, pairs: &[(i32, i32)], table: &[u32]) {
    let (own_w, own_h) = (coef.rounded_px_w, coef.rounded_px_h);
    let (across, down) = (coef.horizontal_samp_factor.u32(), coef.vertical_samp_factor.u32());
    let resample = own_w != w || own_h != h;
    let full = |cx: u32, cy: u32, s: u32| ((cy * down + s / across) * w + cx * across + s % across) as usize;
    let samples = || (0..own_h).flat_map(|cy| (0..own_w).map(move |cx| (cx, cy)));

    if resample {
        for (cx, cy) in samples() {
            let mut mean = 0.0;
            (0..across * down).for_each(|s| mean += aux.fdata[full(cx, cy, s)]);
            mean /= (across * down) as f32;
            aux.pixel_diff.y[(cy * own_w + cx) as usize] = mean;
            (0..across * down).for_each(|s| aux.fdata[full(cx, cy, s)] -= mean);
        }
    }

    let image = if resample { &aux.pixel_diff.y } else { &aux.fdata };
    to_blocks(image, aux.pixel_diff.x.as_mut(), own_w, own_h, coef.block_w, coef.block_h);
    let blocks = |values: &mut [f32], transform: fn(&mut [f32; 64])| {
        values[..pairs.len()].chunks_mut(64).for_each(|block| transform(block.try_into().expect("64 values")));
    };
    blocks(aux.pixel_diff.x.as_mut(), dct8x8);
    for (k, (pair, x)) in pairs.iter().zip(aux.pixel_diff.x.iter_mut()).enumerate() {
        let (low, high) = ends(*pair, table[k % 64]);
        *x = x.clamp(low, high);
    }
    aux.cos = aux.pixel_diff.x.clone();
    blocks(aux.pixel_diff.x.as_mut(), idct8x8);
    let image = if resample { &mut aux.pixel_diff.y } else { &mut aux.fdata };
    from_blocks(&aux.pixel_diff.x, image.as_mut(), own_w, own_h, coef.block_w, coef.block_h);

    if resample {
        for (cx, cy) in samples() {
            let mean = aux.pixel_diff.y[(cy * own_w + cx) as usize];
            (0..across * down).for_each(|s| aux.fdata[full(cx, cy, s)] += mean);
        }
    }
}

#[cfg(test)]
mod tests {
    use super::*;

    #[test]
    fn only_beyond_an_end_is_outside() {
        for (pair, quantiser) in [((0, 0), 1), ((1, 4), 8), ((-2047, -2047), 255), ((-2047, 2047), 254), ((-3, 2), 7)] {
            let (low, high) = ends(pair, quantiser);
            assert!(!outside(low, pair, quantiser) && outside(low.next_down(), pair, quantiser));
            assert!(!outside(high, pair, quantiser) && outside(high.next_up(), pair, quantiser));
            assert!(!outside(f32::NAN, pair, quantiser));
            assert!(outside(f32::INFINITY, pair, quantiser) && outside(f32::NEG_INFINITY, pair, quantiser));
            assert_eq!(nearest(low.next_down(), pair, quantiser), pair.0);
            assert_eq!(nearest(f32::INFINITY, pair, quantiser), pair.1);
        }
        assert!(!outside(-0.0, (0, 0), 1));
        assert!([1, 2].contains(&nearest(1.5, (-3, 9), 1)));
        assert_eq!([1.5_f32.next_down(), 1.5_f32.next_up()].map(|x| nearest(x, (-3, 9), 1)), [1, 2]);
    }
}
