//! Blend where some channels are held (M-108): "blend neither reads nor writes that channel's buffers. The divisor √channels keeps the full channel number. The totals leave it
//! out." The statements of `tv_gradient` and `tgv_gradient` over the channels that are live, written here beside the unchanged ones, which `Run::blend` holds them against.
use artefact::Aux;

/// Both totals; `channels` is the run's number of channels, of which `live` are not held.
pub fn blend(w: usize, h: usize, channels: usize, live: &mut [&mut Aux], second_order_weight: f32) -> [f64; 2] {
    let root = (channels as f32).sqrt();
    [first_order(w, h, 1.0 / root, live), second_order(w, h, second_order_weight / root, live)]
}

fn first_order(w: usize, h: usize, alpha: f32, live: &mut [&mut Aux]) -> f64 {
    let mut total = 0.0;
    for i in 0..w * h {
        let (right, below) = (i % w + 1 < w, i / w + 1 < h);
        let to = |plane: &[f32], k: usize, there: bool| if there { plane[k] - plane[i] } else { 0.0 };
        let changes: Vec<[f32; 2]> =
            live.iter().map(|aux| [to(&aux.fdata, i + 1, right), to(&aux.fdata, i + w, below)]).collect();
        let norm = changes.iter().flatten().fold(0.0, |sum: f32, g| sum + g * g).sqrt();
        total = f64::mul_add(alpha.into(), norm.into(), total);
        for (aux, [across, down]) in live.iter_mut().zip(changes) {
            (aux.pixel_diff.x[i], aux.pixel_diff.y[i]) = (across, down);
            if norm == 0.0 {
                continue;
            }
            let mut add = |k: usize, by: f32| aux.obj_gradient[k] = alpha.mul_add(by, aux.obj_gradient[k]);
            add(i, -(across + down) / norm);
            if right {
                add(i + 1, across / norm);
            }
            if below {
                add(i + w, down / norm);
            }
        }
    }
    total
}

/// Of a pixel and a channel: the second differences across, down, and mixed.
fn second_differences(aux: &Aux, i: usize, w: usize) -> [f32; 3] {
    let from = |buffer: &[f32], back: usize, there: bool| if there { buffer[i] - buffer[i - back] } else { 0.0 };
    let (left, above) = (i % w > 0, i >= w);
    let (across, down) = (&aux.pixel_diff.x, &aux.pixel_diff.y);
    [from(across, 1, left), from(down, w, above), f32::midpoint(from(across, w, above), from(down, 1, left))]
}

fn second_order(w: usize, h: usize, alpha: f32, live: &mut [&mut Aux]) -> f64 {
    let mut total = 0.0;
    for i in 0..w * h {
        let all: Vec<[f32; 3]> = live.iter().map(|aux| second_differences(aux, i, w)).collect();
        let square = |[xx, yy, xy]: &[f32; 3]| yy * yy + (2.0 * (xy * xy) + xx * xx);
        let norm = all.iter().fold(0.0, |sum: f32, d| sum + square(d)).sqrt();
        total += f64::from(alpha * norm);
        if norm == 0.0 {
            continue;
        }
        let (x, y) = (i % w, i / w);
        for (aux, [xx, yy, xy]) in live.iter_mut().zip(all) {
            let mut add = |there: bool, k: usize, by: f32| {
                if there {
                    aux.obj_gradient[k] = alpha.mul_add(by / norm, aux.obj_gradient[k]);
                }
            };
            add(true, i, -(2.0 * yy + (2.0 * xx + 2.0 * xy)));
            add(x > 0, i.wrapping_sub(1), xy + xx);
            add(x + 1 < w, i + 1, xy + xx);
            add(y > 0, i.wrapping_sub(w), yy + xy);
            add(y + 1 < h, i + w, yy + xy);
            add(x + 1 < w && y > 0, i.wrapping_sub(w) + 1, -xy);
            add(x > 0 && y + 1 < h, i + w - 1, -xy);
        }
    }
    total
}
