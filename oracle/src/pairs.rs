//! Pairs of sheets for stitching (M-107): ones that fit, ones with a need unmet, and fixed ones with their answers.
use crate::{
    random::Random,
    sheet::{Channel, MOST, Reorder, Rounding, Sheet, Weight, read},
    stitch::Refused,
    texts::{DAMAGES, RANGES, example, levels, marks, table, weight},
};

/// Left and right.
pub type Pair = [Sheet; 2];

/// A pair that fits and whose iteration counts go up to `steps`. The right sheet's weights and settings are often written otherwise than the left's.
pub fn fitting(r: &mut Random, steps: u32) -> Pair {
    let factors = [[1, 1, 1], [1, 1, 2], [1, 2, 2], [2, 1, 1], [2, 2, 2], [4, 2, 1], [3, 1, 1], [3, 3, 3], [4, 4, 4]];
    let (across, channels) = (r.pick(&factors), r.pick(&[1, 1, 3]));
    let unit = 8 * across[..channels].iter().fold(1, |all, factor| if all % factor == 0 { all } else { all * factor });
    let widths = [0; 2].map(|_| unit * r.pick(&[1, 1, 2, 3]));
    let h = 8 * r.pick(&[1, 1, 2, 3]);
    of_sides(r, widths, h, &across[..channels], steps)
}

/// A pair that fits but for the summed width, which is about 512.
pub fn wide(r: &mut Random) -> Pair {
    let (across, channels) = (r.pick(&[1, 2, 4]), r.pick(&[1, 1, 1, 3]));
    let most = 512 / (8 * across);
    let total = (most as i64 + r.pick(&[-1, 0, 0, 1, 1, 2])) as u32;
    let any = r.between(1, most.into()) as u32;
    let left = r.pick(&[1, total / 2, most, total - 1, any]).clamp(total.saturating_sub(most).max(1), most);
    let widths = [left, total - left].map(|n| 8 * across * n.clamp(1, most));
    of_sides(r, widths, 8, &vec![across; channels], 2)
}

fn of_sides(r: &mut Random, widths: [u32; 2], h: u32, across: &[u32], steps: u32) -> Pair {
    let ranges = r.pick(&RANGES);
    let owns: Vec<_> = across.iter().map(|across| own(r, h, *across)).collect();
    let picture_h = if r.one_in(2) { h } else { r.between(1, h.into()) as u32 };
    let one = Sheet {
        w: widths[0],
        h,
        picture_w: widths[0],
        picture_h,
        joint: r.one_in(2),
        counts: [0; 3].map(|_| r.between(0, steps.into()) as u32),
        smoothing: [0; 3].map(|_| weight(r)),
        data: [0; 3].map(|_| weight(r)),
        rounding: r.pick(&[None, Some(Rounding::Truncate), Some(Rounding::Nearest)]),
        reorder: r.pick(&[None, Some(Reorder::Each), Some(Reorder::Once)]),
        hold: None,
        marks: vec![],
        channels: vec![],
    };
    let mut pair = widths.map(|w| {
        let channels = owns.iter().map(|own| {
            let own = Channel { w: w / own.across, ..own.clone() };
            Channel { levels: levels(r, own.w * own.h / 64, ranges), ..own }
        });
        let channels = channels.collect();
        Sheet { w, channels, ..one.clone() }
    });
    for sheet in &mut pair {
        sheet.marks = marks(sheet);
    }
    held(r, &mut pair);
    let right = &mut pair[1];
    right.picture_w = if r.one_in(2) { right.w } else { r.between(1, right.w.into()) as u32 };
    right.smoothing = right.smoothing.map(|weight| respelt(r, weight));
    right.data = right.data.map(|weight| respelt(r, weight));
    right.rounding =
        r.pick(&[right.rounding, Some(right.rounds())]).filter(|letter| *letter != Rounding::Truncate || r.one_in(2));
    right.reorder =
        r.pick(&[right.reorder, Some(right.reorders())]).filter(|letter| *letter != Reorder::Each || r.one_in(2));
    pair
}

/// A channel that has no width and no levels yet.
fn own(r: &mut Random, full_h: u32, across: u32) -> Channel {
    let down = r.between(1, (full_h / 8).min(4).into()) as u32;
    let h = 8 * r.between(1, (full_h / 8 / down).into()) as u32;
    Channel { w: 0, h, across, down, table: table(r), levels: Default::default() }
}

/// The same weight, written by its bits or as a whole number where it is one.
fn respelt(r: &mut Random, weight: Weight) -> Weight {
    let value = weight.value();
    let whole = value.fract() == 0.0 && value <= 255.0;
    if whole && r.one_in(2) { Weight::Whole(value as u32) } else { r.pick(&[weight, Weight::Bits(value.to_bits())]) }
}

/// Held counts of one meaning for the channels that exist, or no line; any for those that don't.
fn held(r: &mut Random, pair: &mut Pair) {
    let (most, channels) = (pair[0].measures(), pair[0].channels.len());
    let any = |r: &mut Random| most.map(|n| r.between(0, n.into()) as u32);
    let due = if r.one_in(2) { most } else { any(r) };
    for sheet in pair {
        let spare = if r.one_in(2) { any(r) } else { due };
        let counts = std::array::from_fn(|c| if c < channels { due[c] } else { spare[c] });
        let absent = due[..channels] == most[..channels] && r.one_in(2);
        sheet.hold = (!absent).then_some(counts);
    }
}

/// A need, and how a pair that fits is made to lack it alone.
type Need = (&'static str, fn(&mut Random, &mut Pair));

pub const NEEDS: [Need; 19] = [
    ("full heights", |r, pair| pair[r.below(2)].h += 8),
    ("own heights", |r, pair| {
        let (k, c) = channel(r, pair);
        let more = pair[k].channels[c].down * 8;
        pair.iter_mut().for_each(|sheet| sheet.h += more);
        let own = &mut pair[k].channels[c];
        own.h += 8;
        let row = levels(r, own.w / 8, (0, 0));
        own.levels.lows.extend(&row.lows);
        own.levels.highs.extend(&row.highs);
        own.levels.ranged.extend(&row.ranged);
    }),
    ("channels", |r, pair| {
        let sheet = &mut pair[r.below(2)];
        let first = sheet.channels[0].clone();
        sheet.channels = vec![first; if sheet.channels.len() == 1 { 3 } else { 1 }];
        sheet.marks.retain(|mark| mark[0] == 0);
        *sheet = sheet.clone().held_within();
    }),
    ("mode", |r, pair| {
        let count = pair[0].counts[0];
        pair.iter_mut().for_each(|sheet| (sheet.counts, sheet.hold) = ([count; 3], None));
        pair[r.below(2)].joint ^= true;
    }),
    ("rounding", |r, pair| {
        let sheet = &mut pair[r.below(2)];
        sheet.rounding = match sheet.rounds() {
            Rounding::Truncate => Some(Rounding::Nearest),
            Rounding::Nearest => r.pick(&[None, Some(Rounding::Truncate)]),
        };
    }),
    ("start", |r, pair| {
        let sheet = &mut pair[r.below(2)];
        sheet.reorder = match sheet.reorders() {
            Reorder::Each => Some(Reorder::Once),
            Reorder::Once => r.pick(&[None, Some(Reorder::Each)]),
        };
    }),
    ("held count", |r, pair| {
        let counts = pair[0].counts.map(|n| n.max(1));
        pair.iter_mut().for_each(|sheet| (sheet.counts, sheet.hold) = (counts, None));
        let (k, c) = channel(r, pair);
        let mut hold = pair[k].measures();
        hold[c] -= 1;
        pair[k].hold = Some(hold);
    }),
    ("smoothing weight", |r, pair| {
        let k = r.below(2);
        other_weight(r, &mut pair[k].smoothing);
    }),
    ("data weight", |r, pair| {
        let k = r.below(2);
        other_weight(r, &mut pair[k].data);
    }),
    ("iterations", |r, pair| {
        pair.iter_mut().for_each(|sheet| sheet.hold = Some([0; 3]));
        let n = &mut pair[r.below(2)].counts[r.below(3)];
        *n = if *n == 0 { 1 } else { *n - 1 };
    }),
    ("factor across", |r, pair| {
        let (k, c) = channel(r, pair);
        let sheet = &mut pair[k];
        let across = r.pick(&[1, 2, 3, 4].map(|n| if n == sheet.channels[c].across { 5 - n } else { n }));
        let fewest =
            [8 * across, sheet.w].into_iter().fold(8, |all, n| if all % n == 0 { all } else { all / gcd(all, n) * n });
        (sheet.w, sheet.picture_w) = (fewest, fewest);
        sheet.channels[c].across = across;
        for own in &mut sheet.channels {
            own.w = sheet.w / own.across;
            own.levels = levels(r, own.w * own.h / 64, (0, 0));
        }
        sheet.marks.clear();
    }),
    ("factor down", |r, pair| {
        let (k, c) = channel(r, pair);
        let (down, own) = (pair[k].channels[c].down, pair[k].channels[c].h);
        let most = own * 4;
        pair.iter_mut().for_each(|sheet| sheet.h = sheet.h.max(most));
        pair[k].channels[c].down = r.pick(&[1, 2, 3, 4].map(|n| if n == down { 5 - n } else { n }));
    }),
    ("table", |r, pair| {
        let (k, c) = channel(r, pair);
        let q = &mut pair[k].channels[c].table[r.pick(&[0, 63, 9, 32])];
        *q = if *q == 1 { 2 } else { *q - 1 };
    }),
    ("picture heights", |r, pair| {
        let height = &mut pair[r.below(2)].picture_h;
        *height = if *height == 1 { 2 } else { *height - 1 };
    }),
    ("left W covered", |_, pair| {
        pair[0].w += 8;
        pair[0].picture_w += 8;
    }),
    ("right W covered", |_, pair| pair[1].w += 8),
    ("both W covered", |_, pair| {
        pair.iter_mut().for_each(|sheet| sheet.w += 8);
        pair[0].picture_w += 8;
    }),
    ("one channel covers W", |r, pair| {
        let (k, c) = channel(r, pair);
        let sheet = &mut pair[k];
        let own = &mut sheet.channels[c];
        if own.w > 8 {
            own.w -= 8;
            own.levels = levels(r, own.w * own.h / 64, (0, 0));
            sheet.marks.retain(|mark| mark[0] as usize != c);
        } else {
            sheet.w += 8;
            sheet.picture_w += 8;
        }
    }),
    ("left picture as wide as W", |r, pair| pair[0].picture_w = r.between(1, i64::from(pair[0].w) - 1) as u32),
];

fn channel(r: &mut Random, pair: &Pair) -> (usize, usize) {
    (r.below(2), r.below(pair[0].channels.len().min(pair[1].channels.len())))
}

fn gcd(a: u32, b: u32) -> u32 {
    if b == 0 { a } else { gcd(b, a % b) }
}

/// One of the three with its lowest bit changed.
fn other_weight(r: &mut Random, weights: &mut [Weight; 3]) {
    let c = r.below(3);
    weights[c] = Weight::Bits(weights[c].value().to_bits() ^ 1);
}

pub fn texts(pair: &Pair) -> [Vec<u8>; 2] {
    pair.clone().map(|sheet| sheet.text())
}

/// Texts for stitching, with their kind. Of ten pairs three fit, two lack one need, one two needs, one is about 512 wide, and in three texts are damaged.
pub fn any(r: &mut Random, number: u64, steps: u32) -> (String, [Vec<u8>; 2]) {
    let lacking = |r: &mut Random, pair: &mut Pair| {
        let (need, lack) = r.pick(&NEEDS);
        lack(r, pair);
        need
    };
    let damage = |r: &mut Random, text: &mut Vec<u8>| r.pick(&DAMAGES).1(r, text);
    match number % 10 {
        0..3 => ("fit".into(), texts(&fitting(r, steps))),
        3 | 4 => {
            let mut pair = fitting(r, steps);
            let need = lacking(r, &mut pair);
            (format!("unmet: {need}"), texts(&pair))
        }
        5 => {
            let mut pair = fitting(r, steps);
            lacking(r, &mut pair);
            lacking(r, &mut pair);
            ("two needs unmet".into(), texts(&pair))
        }
        6 => {
            let mut pair = wide(r);
            if r.one_in(3) {
                lacking(r, &mut pair);
                return ("about 512 wide, a need unmet".into(), texts(&pair));
            }
            ("about 512 wide".into(), texts(&pair))
        }
        n => {
            let mut pair = fitting(r, steps);
            if r.one_in(3) {
                lacking(r, &mut pair);
            }
            let [mut left, mut right] = texts(&pair);
            if n != 8 {
                damage(r, &mut left);
            }
            if n != 7 {
                damage(r, &mut right);
            }
            let kind = ["left text damaged", "right text damaged", "both texts damaged"][n as usize - 7];
            (kind.into(), [left, right])
        }
    }
}

/// Document 01's whole example with a picture as wide as W, as either sheet.
fn base() -> Pair {
    let mut sheet = read(&example(), MOST).expect("legal");
    sheet.picture_w = 8;
    [sheet.clone(), sheet]
}

fn widened(sheet: &mut Sheet, c: usize, w: u32) {
    let own = &mut sheet.channels[c];
    own.w = w;
    own.levels = (0..own.w * own.h).map(|i| (i / 64 % 9) as i32).collect();
}

/// All channels to the whole of W.
fn spread(sheet: &mut Sheet, w: u32) {
    (sheet.w, sheet.picture_w) = (w, w);
    (0..sheet.channels.len()).for_each(|c| widened(sheet, c, w / sheet.channels[c].across));
}

/// Pairs that tell readings of M-107 apart, each with what document 02 gives: None where they are stitched.
pub fn fixed() -> Vec<(&'static str, [Vec<u8>; 2], Option<Refused>)> {
    const SEAM: Option<Refused> = Some((16, 0, 0));
    let sheets = |edit: fn(&mut Sheet, &mut Sheet)| {
        let mut pair = base();
        let [left, right] = &mut pair;
        edit(left, right);
        texts(&pair)
    };
    let three = |sheet: &mut Sheet| sheet.channels = vec![sheet.channels[0].clone(); 3];
    let in_left = |old: &str, new: &str| {
        let [left, right] = texts(&base());
        [String::from_utf8_lossy(&left).replacen(old, new, 1).into_bytes(), right]
    };
    let turned = |[left, right]: [Vec<u8>; 2]| [right, left];
    let cut = |[left, right]: [Vec<u8>; 2]| [left, right[..right.len() - 1].to_vec()];
    let bad = || in_left("B\t1", "B\t2048");
    let whole = texts(&base());
    let [_, misfit] = sheets(|_, right| right.h = 16);
    let misfit = String::from_utf8_lossy(&misfit).replacen("B\t1", "B\tx", 1).into_bytes();
    let mut all: Vec<(&'static str, [Vec<u8>; 2], Option<Refused>)> = vec![
        ("a sheet with itself", whole.clone(), None),
        ("the left text is bad", bad(), Some((5, 1, 3))),
        ("the right text is bad", turned(bad()), Some((5, 2, 3))),
        ("both are bad, the right one earlier", [bad()[0].clone(), b"S\n".to_vec()], Some((5, 1, 3))),
        ("the left is bad, the right cut", cut(bad()), Some((5, 1, 3))),
        ("the right is cut", cut(whole.clone()), Some((7, 2, 4))),
        ("both are empty", [vec![], vec![]], Some((7, 1, 1))),
        ("the right is empty", [whole[0].clone(), vec![]], Some((7, 2, 1))),
        ("the right is bad, and the seam", [whole[0].clone(), misfit], Some((1, 2, 3))),
        ("a byte after the left's end", [[&whole[0][..], b"\n"].concat(), whole[1].clone()], Some((7, 1, 5))),
    ];
    all.extend([
        ("other full heights", sheets(|_, right| right.h = 16), SEAM),
        ("a spare count", sheets(|_, right| right.counts[2] = 1), SEAM),
        ("a spare weight", sheets(|_, right| right.data[2] = Weight::Bits(1)), SEAM),
        ("j and s, one channel", sheets(|_, right| right.joint = true), SEAM),
        (
            "weights by their bits",
            sheets(|left, right| {
                left.smoothing = [Weight::Whole(1), Weight::Bits(0x437f_0000), Weight::Whole(0)];
                right.smoothing = [Weight::Bits(0x3f80_0000), Weight::Whole(255), Weight::Bits(0)];
            }),
            None,
        ),
        ("the smallest weight and 0", sheets(|left, _| left.smoothing[0] = Weight::Bits(1)), SEAM),
        ("F t and none", sheets(|left, _| left.rounding = Some(Rounding::Truncate)), None),
        ("none and F t", sheets(|_, right| right.rounding = Some(Rounding::Truncate)), None),
        ("F n and none", sheets(|left, _| left.rounding = Some(Rounding::Nearest)), SEAM),
        (
            "F n and F t",
            sheets(|left, right| (left.rounding, right.rounding) = (Some(Rounding::Nearest), Some(Rounding::Truncate))),
            SEAM,
        ),
        ("A m and none", sheets(|left, _| left.reorder = Some(Reorder::Each)), None),
        ("none and A o", sheets(|_, right| right.reorder = Some(Reorder::Once)), SEAM),
        (
            "all settings, said and unsaid",
            sheets(|left, _| {
                (left.rounding, left.reorder, left.hold) =
                    (Some(Rounding::Truncate), Some(Reorder::Each), Some([0; 3]));
            }),
            None,
        ),
        (
            "H of one channel, spare counts",
            sheets(|left, right| {
                (left.counts, right.counts) = ([5, 6, 7], [5, 6, 7]);
                (left.hold, right.hold) = (Some([5, 6, 7]), Some([5, 0, 0]));
            }),
            None,
        ),
        (
            "no H and spare counts",
            sheets(|left, right| {
                (left.counts, right.counts) = ([5, 6, 7], [5, 6, 7]);
                right.hold = Some([5, 0, 0]);
            }),
            None,
        ),
        (
            "H that holds",
            sheets(|left, right| {
                (left.counts, right.counts) = ([5, 6, 7], [5, 6, 7]);
                right.hold = Some([4, 6, 7]);
            }),
            SEAM,
        ),
        ("other picture heights", sheets(|_, right| right.picture_h = 2), SEAM),
        ("the left picture narrower", sheets(|left, _| left.picture_w = 7), SEAM),
        ("the right picture narrower", sheets(|_, right| right.picture_w = 1), None),
        ("W not covered by the left", sheets(|left, _| (left.w, left.picture_w) = (16, 16)), SEAM),
        ("W not covered by the right", sheets(|_, right| right.w = 16), SEAM),
        ("W covered by neither", sheets(|left, right| (left.w, left.picture_w, right.w) = (16, 16, 16)), SEAM),
        ("the last quantiser", sheets(|_, right| right.channels[0].table[63] = 9), SEAM),
        (
            "another factor down",
            sheets(|left, right| {
                (left.h, right.h) = (16, 16);
                right.channels[0].down = 2;
            }),
            SEAM,
        ),
        ("H not covered", sheets(|left, right| (left.h, right.h) = (16, 16)), None),
    ]);
    let threes = |edit: fn(&mut Sheet, &mut Sheet)| {
        let mut pair = base();
        let [left, right] = &mut pair;
        [&mut *left, &mut *right].into_iter().for_each(|sheet| {
            three(sheet);
            (sheet.joint, sheet.counts) = (true, [5, 6, 7]);
        });
        edit(left, right);
        texts(&pair)
    };
    all.extend([
        (
            "one channel and three",
            [whole[0].clone(), threes(|_, right| (right.joint, right.counts) = (false, [0; 3]))[1].clone()],
            SEAM,
        ),
        ("joint, no H and the first count", threes(|_, right| right.hold = Some([5; 3])), None),
        ("joint, no H and another", threes(|_, right| right.hold = Some([5, 5, 4])), SEAM),
        (
            "separate, no H and the first count",
            threes(|left, right| {
                (left.joint, right.joint) = (false, false);
                right.hold = Some([5; 3]);
            }),
            SEAM,
        ),
        (
            "separate, no H and the counts",
            threes(|left, right| {
                (left.joint, right.joint) = (false, false);
                right.hold = Some([5, 6, 7]);
            }),
            None,
        ),
        ("the last channel's table", threes(|_, right| right.channels[2].table[0] = 9), SEAM),
        (
            "marks of both, other columns by channel",
            threes(|left, right| {
                [left, right].into_iter().for_each(|sheet| {
                    (sheet.channels[1].across, sheet.channels[2].across) = (2, 2);
                    spread(sheet, 16);
                    sheet.marks = vec![[1, 0, 0], [0, 0, 1], [2, 0, 0]];
                });
            }),
            None,
        ),
        (
            "G lines, and narrower numbers",
            threes(|left, right| {
                spread(right, 104);
                right.channels[1].levels.ranged = vec![true; 13];
                left.channels[2].levels.ranged = vec![true];
            }),
            None,
        ),
    ]);
    let fours = |widths: [u32; 2]| {
        let mut pair = base();
        for (sheet, w) in pair.iter_mut().zip(widths) {
            sheet.channels[0].across = 4;
            spread(sheet, w);
        }
        texts(&pair)
    };
    let wides = |[left, right]: [u32; 2], edit: fn(&mut Sheet)| {
        let mut pair = base();
        spread(&mut pair[0], left);
        spread(&mut pair[1], right);
        edit(&mut pair[1]);
        texts(&pair)
    };
    all.extend([
        ("512 in all", wides([256, 256], |_| ()), None),
        ("520 in all", wides([264, 256], |_| ()), Some((2, 0, 0))),
        ("1,024 in all", wides([512, 512], |_| ()), Some((2, 0, 0))),
        ("520 in all, and a seam", wides([264, 256], |right| right.channels[0].table[5] = 9), SEAM),
        ("from 8 and 504", wides([8, 504], |_| ()), None),
        ("544 in all, by factors", fours([512, 32]), Some((2, 0, 0))),
        ("512 in all, by factors", fours([480, 32]), None),
        ("a right of 520", wides([8, 520], |_| ()), Some((2, 2, 1))),
    ]);
    all
}
