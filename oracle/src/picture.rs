//! The whole program: a sheet text to the lines that are printed, by the published `solve_cpu` and `finish` of lib.rs. The jobs of `run` find blown channels. The rounding of line
//! `F n` (M-100) is written here, beside the published `finish`; for `A o` (M-102) `solve_cpu` is built with the one reordering.
use crate::{
    floats::{bits64, same},
    published::{each, once},
    run::runs,
    sheet::{Reorder, Rounding, SMOOTH, Sheet, joined, read},
};
use artefact::{
    AlignedF32,
    image::{Rgb, RgbImage},
    pipeline::open::finish,
};

/// What the program `smooth` prints for a text.
pub fn smooth(text: &[u8]) -> String {
    match read(text, SMOOTH).and_then(|sheet| printed(&sheet).ok_or((10, 0))) {
        Ok(lines) => lines,
        Err((number, line)) => format!("X\t{number}\t{line}\n"),
    }
}

/// "`T`, channel of the run's start (0 in joint mode), step from 1, and both totals as 16 lowercase hexadecimal digits of their bits (a NaN as 7ff8000000000000), run
/// after run" (M-103); "on a line `K`, channel, number, channels rising, between the `T` lines and `I`" (M-104); then the picture. None where a channel is blown.
fn printed(sheet: &Sheet) -> Option<String> {
    let ended = ended(sheet)?;
    let total = |t: &Total| {
        let [first, second] = t.totals.map(bits64);
        format!("T\t{}\t{}\t{first:016x}\t{second:016x}\n", t.channel, t.step)
    };
    let totals = ended.totals.iter().map(total);
    let clipped = ended.clipped.iter().enumerate().map(|(c, number)| format!("K\t{c}\t{number}\n"));
    Some(totals.chain(clipped).collect::<String>() + &picture_lines(&drawn(sheet, ended.planes)))
}

fn picture_lines(image: &RgbImage) -> String {
    let pixel = |p: &[u8]| format!("{:02x}{:02x}{:02x}", p[0], p[1], p[2]);
    let rows = image.bytes.chunks(3 * image.width as usize);
    let rows = rows.map(|row| format!("R\t{}\n", joined(row.chunks(3).map(pixel), "\t")));
    format!("I\t{}\t{}\n{}", image.width, image.height, rows.collect::<String>())
}

/// What a blend returned: the first channel of its run, the step from 1, the totals of both gradients.
pub struct Total {
    pub channel: usize,
    pub step: usize,
    pub totals: [f64; 2],
}

/// What the runs of a sheet leave, channel after channel: the planes, and how many coefficients the last projection moved; and the totals of all blends, run after run.
pub struct Ended {
    pub planes: Vec<Vec<f32>>,
    pub clipped: Vec<u32>,
    pub totals: Vec<Total>,
}

/// None where a channel is blown.
pub fn ended(sheet: &Sheet) -> Option<Ended> {
    let mut planes: Vec<AlignedF32> = vec![];
    let (mut clipped, mut totals) = (vec![], vec![]);
    for (channel, mut run) in runs(sheet).into_iter().enumerate() {
        while !run.is_done() {
            run.step(|_, _, _| ());
            totals.push(Total { channel, step: run.positions[0] / 5, totals: run.totals });
            if run.is_blown() {
                return None;
            }
        }
        clipped.extend(&run.clipped);
        planes.extend(run.auxs.into_iter().map(|aux| aux.fdata));
    }
    let planes: Vec<Vec<f32>> = planes.iter().map(|plane| plane.to_vec()).collect();
    if sheet.channels.iter().all(|c| c.levels.are_equal()) && !sheet.is_held() {
        let solved = solved(sheet);
        let mut pairs = solved.iter().flatten().zip(planes.iter().flatten());
        assert!(pairs.all(|(x, y)| same(*x, *y)), "the jobs' planes differ from those of `solve_cpu`");
    }
    Some(Ended { planes, clipped, totals })
}

/// The published `solve_cpu`. It knows no ranges, and holds no channel.
pub fn solved(sheet: &Sheet) -> Vec<Vec<f32>> {
    match sheet.reorders() {
        Reorder::Each => each::solve_cpu(sheet),
        Reorder::Once => once::solve_cpu(sheet),
    }
}

/// The published `finish`, or with `F n` its statements with another rounding. These are held against the published ones on every picture.
pub fn drawn(sheet: &Sheet, planes: Vec<Vec<f32>>) -> RgbImage {
    let own = |byte: fn(f32) -> u8| rounded(sheet, &planes, byte);
    let (truncated, nearest) = (own(|v| v as u8), own(nearest));
    let planes = planes.into_iter().map(AlignedF32::from).collect();
    let published = finish(&each::settings(sheet), &each::jpeg(sheet), planes, sheet.w, sheet.h);
    assert!(truncated.bytes == published.bytes, "the own statements differ from `finish`");
    match sheet.rounds() {
        Rounding::Truncate => published,
        Rounding::Nearest => nearest,
    }
}

/// "the nearest whole number of the clamped f32, halves upward, and 0 for NaN": in f64 the sum is exact where it matters.
pub fn nearest(v: f32) -> u8 {
    (f64::from(v) + 0.5).floor() as u8
}

/// The statements of `finish`, with `byte` for the last `as u8`.
fn rounded(sheet: &Sheet, planes: &[Vec<f32>], byte: fn(f32) -> u8) -> RgbImage {
    let shade = |v: f32| byte(v.clamp(0.0, 255.0));
    RgbImage::from_fn(sheet.picture_w, sheet.picture_h, |x, y| {
        let at = (y * sheet.w + x) as usize;
        let luma = planes[0][at] + 128.0;
        if sheet.channels.len() == 1 {
            return Rgb([shade(luma); 3]);
        }
        let (cb, cr) = (planes[1][at], planes[2][at]);
        Rgb([shade(1.402 * cr + luma), shade(0.71414 * -cr + (0.34414 * -cb + luma)), shade(1.772 * cb + luma)])
    })
}

#[cfg(test)]
mod tests {
    use super::*;
    use crate::{
        random::Random,
        run::{Run, runs},
        texts::{example, fixed_runs, largest, legal},
    };

    #[test]
    fn whole_example() {
        assert_eq!(smooth(&example()), "K\t0\t0\nI\t2\t1\nR\t818181\t818181\n");
        assert_eq!(smooth(&[example(), b"\n".into()].concat()), "X\t7\t5\n");
    }

    #[test]
    fn nearest_halves_upward() {
        let bits = f32::from_bits;
        for k in 0..255 {
            let tie = k as f32 + 0.5;
            let [below, above] = [bits(tie.to_bits() - 1), bits(tie.to_bits() + 1)];
            assert_eq!([below, tie, above].map(nearest), [k as u8, k as u8 + 1, k as u8 + 1]);
        }
        assert_eq!([0.0, -0.0, 255.0, f32::NAN, bits(1)].map(nearest), [0, 0, 255, 0, 0]);
    }

    #[test]
    fn rounding_by_line_f() {
        let f = |letter: &str| String::from_utf8_lossy(&example()).replacen("\nC", &format!("\nF\t{letter}\nC"), 1);
        let with = |old: &str, new: &str, letter: &str| smooth(f(letter).replacen(old, new, 1).as_bytes());
        assert_eq!(with("", "", "t"), "K\t0\t0\nI\t2\t1\nR\t818181\t818181\n");
        // y = 128.5 and 127.5
        assert_eq!(with("1\t1\t8", "1\t1\t4", "n"), "K\t0\t0\nI\t2\t1\nR\t818181\t818181\n");
        assert_eq!(with("1\t1\t8", "1\t1\t4", "t"), "K\t0\t0\nI\t2\t1\nR\t808080\t808080\n");
    }

    /// The half sum isn't cut to a whole number; equal pairs are the line `B`.
    #[test]
    fn ranges() {
        let with = |pair: &str, letter: &str| {
            let text = String::from_utf8_lossy(&example()).replacen("\nC", &format!("\nF\t{letter}\nC"), 1);
            let (before, after) = text.split_once("\nB").expect("a block");
            let end = after.split_once('\n').expect("a line").1;
            smooth(format!("{before}\nG\t{pair}{}\n{end}", "\t0".repeat(126)).as_bytes())
        };
        assert_eq!(with("1\t4", "n"), "K\t0\t0\nI\t2\t1\nR\t838383\t838383\n");
        assert_eq!(with("-4\t-1", "n"), "K\t0\t0\nI\t2\t1\nR\t7e7e7e\t7e7e7e\n");
        assert_eq!(with("1\t1", "t"), smooth(&example()));
        assert_eq!(with("4\t1", "t"), "X\t14\t4\n");
    }

    /// A held count of 0 leaves the start; one equal to the iterations changes nothing; a step that would blow a held channel doesn't.
    #[test]
    fn held() {
        let with = |hold: &str, counts: &str| {
            let text = String::from_utf8_lossy(&example()).replacen("\t0\t0\t0\t", counts, 1);
            smooth(text.replacen("\nC", &format!("\nH\t{hold}\nC"), 1).as_bytes())
        };
        let zero = "0".repeat(16);
        let start = format!("T\t0\t1\t{zero}\t{zero}\nK\t0\t0\nI\t2\t1\nR\t818181\t818181\n");
        assert_eq!(with("0\t0\t0", "\t1\t0\t0\t"), start);
        assert_eq!(with("0\t0\t0", "\t0\t0\t0\t"), smooth(&example()));
        assert_eq!(with("1\t0\t0", "\t0\t0\t0\t"), "X\t17\t2\n");
        for (name, sheet, blown) in fixed_runs() {
            let none = Sheet { hold: Some(sheet.holds()), ..sheet.clone() };
            assert_eq!(smooth(&none.text()), smooth(&sheet.text()), "{name}");
            if blown && name.contains("last") {
                let hold = sheet.holds().map(|n| n.min(2));
                assert_ne!(smooth(&Sheet { hold: Some(hold), ..sheet }.text()), "X\t10\t0\n", "{name}");
            }
        }
    }

    /// One line T for each blend; the bits of an infinite total; the longest output.
    #[test]
    fn totals() {
        let lines = |sheet: &Sheet| -> Vec<String> { smooth(&sheet.text()).lines().map(str::to_owned).collect() };
        for (name, sheet, blown) in fixed_runs() {
            let first: Vec<_> = lines(&sheet).into_iter().filter(|line| line.starts_with('T')).collect();
            let (steps, counts) = (first.len() as u32, sheet.counts);
            let due = if sheet.joint || sheet.channels.len() == 1 { counts[0] } else { counts.iter().sum() };
            assert_eq!(steps, if blown { 0 } else { due }, "{name}");
        }
        let (_, sheet, _) = fixed_runs().pop().expect("a sheet");
        assert!(lines(&sheet)[0].ends_with("\t7ff0000000000000"));
        let mut separate =
            fixed_runs().into_iter().find(|(name, ..)| *name == "separate: one step less").expect("one").1;
        separate.counts = [0, 1, 0];
        assert!(lines(&separate)[0].starts_with("T\t1\t1\t") && lines(&separate)[1].starts_with("K\t0\t"));
        // K numbers of four digits would be three bytes more
        assert_eq!(smooth(&largest().text()).len(), 132_943);
    }

    #[test]
    fn blown_or_not() {
        for (name, sheet, blown) in fixed_runs() {
            assert_eq!(smooth(&sheet.text()) == "X\t10\t0\n", blown, "{name}");
        }
    }

    #[test]
    fn start_is_reordered_repeatedly_or_once() {
        let mut sheet = read(&example(), SMOOTH).expect("legal");
        (sheet.w, sheet.channels[0].w) = (16, 16);
        sheet.channels[0].levels = [1].into_iter().chain([0; 127]).collect();
        let v = 1.0 - 2.0_f32.powi(-24);
        for reorder in [None, Some(Reorder::Each), Some(Reorder::Once)] {
            sheet.reorder = reorder;
            let (_, plane) = &runs(&sheet)[0].buffers(0)[0];
            for (i, x) in plane.iter().enumerate() {
                let (row, column) = (i / 16, i % 16);
                let bright = column < 8 && (row % 2 == 0 || reorder == Some(Reorder::Once));
                assert_eq!(*x, if bright { v } else { 0.0 });
            }
        }
    }

    /// Own width 8 hides the letter.
    #[test]
    fn width_8_hides_line_a() {
        let mut r = Random::new(3);
        for _ in 0..300 {
            let sheet = Sheet { reorder: None, ..legal(&mut r, 32, 2) };
            let once = Sheet { reorder: Some(Reorder::Once), ..sheet.clone() };
            let starts = |sheet: &Sheet| -> Vec<Vec<f32>> {
                let plane = |run: &Run, c| run.buffers(c)[0].1.clone();
                runs(sheet)
                    .iter()
                    .flat_map(|run| (0..run.channels()).map(|c| plane(run, c)).collect::<Vec<_>>())
                    .collect()
            };
            for ((own, x), y) in sheet.channels.iter().zip(starts(&sheet)).zip(starts(&once)) {
                assert!(own.w > 8 || x == y);
            }
        }
    }
}
