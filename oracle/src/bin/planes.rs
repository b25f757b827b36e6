//! The whole run and the picture of the proved library beside the published `solve_cpu` and `finish`, bit for bit.
//!
//!     planes [N [SEED]]       N sheets at random (64,000), and fixed ones
//!     planes --faults         plants faults, one kind after another, and fails unless each is reported
//!     planes --bench [N]      the thread's processor time of `solve_cpu` and `smoother_solve`, best and median of N (5): 32 by 32 with 1,000 iterations and 512 by
//!                             512 with 10 and 50, three channels in both modes and one; and with two channels held, beside the published run without a hold
//!
//! A sheet is written as text, read by the proved reader, solved by its numbers, and finished. Some of what is lent is damaged first, in a length, a number,
//! a quantiser or a level, or in two of these: the answer is then document 01's, and a refusal leaves all buffers as they were.
use oracle::{
    bench::{best_median, cpu_of},
    floats::{any, bits64, same},
    picture::{drawn, ended, nearest, solved},
    probe,
    random::Random,
    sheet::{Channel, Levels, MOST, Reader, Reorder, Rounding, Sheet, Weight},
    tally::Tally,
    texts::{fixed_runs, hidden, legal},
};
use std::{collections::BTreeMap, process::ExitCode};

fn main() -> ExitCode {
    let args: Vec<String> = std::env::args().skip(1).collect();
    let number = |i: usize, default: u64| args.get(i).map_or(default, |a| a.parse().expect("a whole number"));
    match args.first().map(String::as_str) {
        Some("--faults") => faults(),
        Some("--bench") => bench(number(1, 5) as usize),
        _ => {
            println!("seed {}", number(1, 1));
            let (tally, answers) = compare(number(0, 64_000), number(1, 1), "");
            println!("answers of solve, and how often: {answers:?}");
            tally.close()
        }
    }
}

/// What the whole run is lent.
#[derive(Clone)]
struct Lent {
    numbers: Vec<u32>,
    lows: Vec<i16>,
    highs: Vec<i16>,
    tables: Vec<u16>,
    six: [Vec<f32>; 6],
    /// Each channel's number of the last project.
    clipped: Vec<u32>,
    /// Both totals of each blend, run after run.
    totals: Vec<f64>,
}

impl Lent {
    /// By the proved reader. The six hold values left over from something else.
    fn read(r: &mut Random, text: &[u8], reader: Reader) -> Self {
        let (mut n, mut m, mut line) = (0, 0, 0);
        let measured = probe::measure(text, MOST, &mut n, &mut m, &mut line);
        let ([mut lows, mut highs], mut tables, mut numbers) =
            ([0; 2].map(|_| vec![0; n]), vec![0; m], vec![0; probe::NUMBERS]);
        let read = probe::read(text, MOST, reader as u32, &mut lows, &mut highs, &mut tables, &mut numbers, &mut line);
        assert_eq!((measured, read), (0, 0), "a legal text");
        let all = (numbers[4] * numbers[0] * numbers[1]) as usize;
        let left = any(r);
        let six = [0; 6].map(|_| (0..all).map(|i| if i % 7 == 0 { any(r) } else { left }).collect());
        let clipped = vec![77; numbers[4] as usize];
        let totals = vec![7.0; 2 * blends(&numbers)];
        Self { numbers, lows, highs, tables, six, clipped, totals }
    }

    fn solve(&mut self) -> u32 {
        let levels = [&self.lows[..], &self.highs];
        probe::solve(&self.numbers, levels, &self.tables, &mut self.six, &mut self.clipped, &mut self.totals)
    }

    /// By document 01 and docs/DECISIONS.md, in order: no record (8), no legal record (13), lengths (8), quantisers (4), pair by pair levels (5) and ranges
    /// (14).
    fn refusal(&self) -> u32 {
        let n = &self.numbers;
        if n.len() != probe::NUMBERS {
            return 8;
        }
        if !(n[5] <= 1 && n[28] <= 1 && self.is_legal()) {
            return 13;
        }
        let count = n[4] as usize;
        let all = count * (n[0] * n[1]) as usize;
        let own: usize = (0..count).map(|c| (n[15 + 4 * c] * n[16 + 4 * c]) as usize).sum();
        let inputs = self.lows.len() == own && self.highs.len() == own && self.tables.len() == 64 * count;
        let lent_out = self.clipped.len() == count && self.totals.len() == 2 * blends(n);
        if !inputs || !lent_out || self.six.iter().any(|x| x.len() != all) {
            8
        } else if self.tables.iter().any(|q| !(1..=255).contains(q)) {
            4
        } else {
            let legal = |level: &i16| (-2047..=2047).contains(level);
            let pairs = self.lows.iter().zip(&self.highs);
            let mut faults = pairs.map(|(low, high)| match (legal(low) && legal(high), low <= high) {
                (false, _) => 5,
                (_, false) => 14,
                _ => 0,
            });
            faults.find(|fault| *fault != 0).unwrap_or(0)
        }
    }

    /// What the runs of the sheet use, in either mode.
    fn is_legal(&self) -> bool {
        let n = &self.numbers;
        let weight = |bits: u32| f32::from_bits(bits).is_finite() && bits >> 31 == 0;
        let own = |side: u32, factor: u32, full: u32| {
            side % 8 == 0
                && side >= 8
                && (1..=4).contains(&factor)
                && u64::from(side) * u64::from(factor) <= full.into()
        };
        let channel = |c: usize| {
            let own_sides = own(n[15 + 4 * c], n[17 + 4 * c], n[0]) && own(n[16 + 4 * c], n[18 + 4 * c], n[1]);
            let most = if n[5] == 1 { n[6] } else { n[6 + c] };
            own_sides && n[6 + c] <= 1000 && n[29 + c] <= most && weight(n[9 + c]) && weight(n[12 + c])
        };
        n[..2].iter().all(|side| side % 8 == 0 && (8..=512).contains(side))
            && (n[4] == 1 || n[4] == 3)
            && (0..n[4] as usize).all(channel)
    }

    /// The sheet, where nothing is refused.
    fn sheet(&self) -> Sheet {
        let n = &self.numbers;
        let weights = |at: usize| [0, 1, 2].map(|c| Weight::Bits(n[at + c]));
        let mut from = 0;
        let channel = |c: usize| {
            let [w, h, across, down] = [15, 16, 17, 18].map(|i| n[i + 4 * c]);
            let table = self.tables[64 * c..][..64].iter().map(|q| u32::from(*q)).collect();
            let own = from..from + (w * h) as usize;
            from = own.end;
            let part = |levels: &[i16]| levels[own.clone()].iter().map(|d| (*d).into()).collect();
            Channel { w, h, across, down, table, levels: Levels::of(part(&self.lows), part(&self.highs)) }
        };
        Sheet {
            w: n[0],
            h: n[1],
            picture_w: n[2],
            picture_h: n[3],
            joint: n[5] == 1,
            counts: [n[6], n[7], n[8]],
            smoothing: weights(9),
            data: weights(12),
            rounding: Some(if n[27] == 1 { Rounding::Nearest } else { Rounding::Truncate }),
            reorder: Some(if n[28] == 1 { Reorder::Once } else { Reorder::Each }),
            hold: Some([n[29], n[30], n[31]]),
            marks: vec![],
            channels: (0..n[4] as usize).map(channel).collect(),
        }
    }
}

/// How many blends the runs of a record's numbers have: one run of the first count in joint mode, else one of each channel's.
fn blends(numbers: &[u32]) -> usize {
    let counts = if numbers[5] == 1 { &numbers[6..7] } else { &numbers[6..][..numbers[4] as usize] };
    counts.iter().map(|n| *n as usize).sum()
}

/// Changes a length, a number, a quantiser or a level. Iteration counts stay small or become illegal.
fn damage(r: &mut Random, x: &mut Lent) {
    const NUMBERS: [u32; 22] = [
        0,
        1,
        2,
        3,
        4,
        5,
        8,
        12,
        16,
        24,
        32,
        40,
        512,
        513,
        520,
        0x3f80_0000,
        0x7f7f_ffff,
        0x7f80_0000,
        0x7fc0_0000,
        0x8000_0000,
        0xbf80_0000,
        u32::MAX,
    ];
    match r.below(14) {
        12 => x.totals.resize(longer(r, x.totals.len()), 7.0),
        10 => x.clipped.resize(r.pick(&[0, 1, 2, 3, 4]), 77),
        0 => x.numbers.resize(r.pick(&[0, 1, 27, 29, 31, 33, 64]), 1),
        1 => {
            let levels = if r.one_in(2) { &mut x.lows } else { &mut x.highs };
            levels.resize(longer(r, levels.len()), 0);
        }
        2 => x.tables.resize(longer(r, x.tables.len()), 1),
        3 => {
            let b = r.below(6);
            x.six[b].resize(longer(r, x.six[b].len()), 0.0);
        }
        4 if !x.tables.is_empty() => {
            let at = r.below(x.tables.len());
            x.tables[at] = r.pick(&[0, 1, 255, 256, u16::MAX]);
        }
        5 if !x.lows.is_empty() && !x.highs.is_empty() => {
            let levels = if r.one_in(2) { &mut x.lows } else { &mut x.highs };
            let at = r.below(levels.len());
            levels[at] = r.pick(&[2047, 2048, -2047, -2048, i16::MIN, i16::MAX]);
        }
        11 if !x.lows.is_empty() && !x.highs.is_empty() => {
            let at = r.below(x.lows.len().min(x.highs.len()));
            (x.lows[at], x.highs[at]) = r.pick(&[(2, 1), (-1, -2), (2047, -2047), (2048, 2047), (0, 0)]);
        }
        _ => {
            let at = r.below(x.numbers.len().max(1));
            let count = (6..9).contains(&at) || at > 28;
            let new = if count { r.pick(&[0, 1, 2, 1001, 65_536, u32::MAX]) } else { r.pick(&NUMBERS) };
            x.numbers.iter_mut().skip(at).take(1).for_each(|n| *n = new);
        }
    }
}

fn longer(r: &mut Random, length: usize) -> usize {
    r.pick(&[0, length.saturating_sub(1), length + 1, length.saturating_sub(64), length + 64])
}

/// The sheets, each with its kind; the largest only where `large`.
fn sheets(r: &mut Random, count: u64, large: bool) -> impl Iterator<Item = (&'static str, Sheet)> {
    let fixed = fixed_runs().into_iter().map(|(_, sheet, _)| ("fixed sheet", sheet));
    let ways = [(true, Reorder::Each), (false, Reorder::Each), (true, Reorder::Once), (false, Reorder::Once)];
    let whole = |(joint, reorder)| Sheet { reorder: Some(reorder), ..full(r, 512, joint, 1) };
    let large: Vec<_> = ways.into_iter().filter(|_| large).map(whole).collect();
    let large = large.into_iter().map(|sheet| ("512 by 512, three channels", sheet));
    fixed.chain(large).chain(
        (0..count).map(
            move |i| {
                if i % 50 == 0 { ("sides to 512", legal(r, 512, 2)) } else { ("sides to 64", legal(r, 64, 5)) }
            },
        ),
    )
}

/// Three channels that cover all of it.
fn full(r: &mut Random, side: u32, joint: bool, steps: u32) -> Sheet {
    let channel = |_| Channel {
        w: side,
        h: side,
        across: 1,
        down: 1,
        table: (0..64).map(|_| r.between(1, 99) as u32).collect(),
        levels: (0..side * side).map(|_| r.between(-9, 9) as i32).collect(),
    };
    let channels = (0..3).map(channel).collect();
    let weight = |thousandths: u32| Weight::Bits((thousandths as f32 / 1000.0).to_bits());
    Sheet {
        w: side,
        h: side,
        picture_w: side,
        picture_h: side,
        joint,
        counts: [steps; 3],
        smoothing: [300, 700, 1100].map(weight),
        data: [5, 1, 2].map(weight),
        rounding: Some(Rounding::Nearest),
        reorder: None,
        hold: None,
        marks: vec![],
        channels,
    }
}

const FAULTS: [&str; 21] = [
    "the other mode",
    "the other start",
    "the lows for both",
    "the highs for both",
    "a hidden level let through",
    "another hidden level",
    "the second data weight for the first",
    "one step less",
    "held one step later",
    "held counts in another order",
    "the lowest bit of the last value",
    "one coefficient more",
    "a number changed by a refusal",
    "a total changed by a refusal",
    "the lowest bit of the last total",
    "done where blown",
    "a value changed by a refusal",
    "another number of a refusal",
    "a byte of the picture",
    "width and height of the picture exchanged",
    "the other rounding",
];

/// Compares, with a fault planted in what the proved library is lent or gives; none where its name is empty.
fn compare(count: u64, seed: u64, fault: &str) -> (Tally, BTreeMap<u32, u64>) {
    let (mut r, mut tally, mut answers) = (Random::new(seed), Tally::default(), BTreeMap::new());
    let mut made = Random::new(seed ^ 0x5eed);
    for (kind, written) in sheets(&mut made, count, fault.is_empty()) {
        let reader = if r.one_in(2) { Reader::Partner } else { Reader::Staff };
        let sheet = written.seen_by(reader);
        let whole = Lent::read(&mut r, &written.text(), reader);
        if reader == Reader::Partner && !written.marks.is_empty() {
            let other = hidden(&mut r, &written).text();
            hides(&mut tally, whole.clone(), Lent::read(&mut r, &other, reader), fault);
        }
        if let Some(plain) = written.plain() {
            let other = Lent::read(&mut r, &plain.text(), reader);
            let levels = whole.lows == whole.highs && (&whole.lows, &whole.highs) == (&other.lows, &other.highs);
            let equal = levels && whole.tables == other.tables && whole.numbers == other.numbers;
            tally.count_in("equal pairs, beside lines B", equal, || String::from_utf8_lossy(&sheet.text()).into());
        }
        if r.one_in(2) {
            let mut x = whole.clone();
            (0..r.pick(&[1, 1, 2])).for_each(|_| damage(&mut r, &mut x));
            let due = x.refusal();
            if due != 0 {
                let before = x.clone();
                let mut answer = x.solve();
                *answers.entry(answer).or_default() += 1;
                match fault {
                    "a value changed by a refusal" => x.six[0].iter_mut().take(1).for_each(|v| *v = 1.5),
                    "a number changed by a refusal" => x.clipped.iter_mut().take(1).for_each(|n| *n = 78),
                    "a total changed by a refusal" => x.totals.iter_mut().take(1).for_each(|t| *t = 8.0),
                    "another number of a refusal" => answer = 21 - answer,
                    _ => (),
                }
                let lent_out = x.clipped == before.clipped && x.totals == before.totals;
                let kept = lent_out && x.six.iter().zip(&before.six).all(|(a, b)| equal(a, b));
                tally.count_in("refused", answer == due && kept, || format!("{answer} for {due}, {:?}", x.numbers));
            } else {
                let sheet = x.sheet();
                solved_as(&mut tally, &mut answers, "damaged, but legal", &sheet, x, fault);
            }
        }
        let letter = match sheet.reorder {
            None => "",
            Some(Reorder::Each) => ", A m",
            Some(Reorder::Once) => ", A o",
        };
        let held = if sheet.is_held() { ", held" } else { "" };
        let marked = if sheet != written { ", partner" } else { "" };
        let lines = match (sheet.is_ranged(), sheet.plain()) {
            (false, _) => "",
            (true, Some(_)) => ", G with equal pairs",
            (true, None) => ", G",
        };
        let plane =
            solved_as(&mut tally, &mut answers, &format!("{kind}{letter}{lines}{held}{marked}"), &sheet, whole, fault);
        finished(&mut tally, &mut r, &sheet, plane, fault);
    }
    if fault.is_empty() {
        ties(&mut tally);
    }
    (tally, answers)
}

/// Two texts that differ in hidden levels alone, as a partner read them: "the same levels, planes, totals, clipped numbers and picture" (M-110).
fn hides(tally: &mut Tally, mut one: Lent, mut other: Lent, fault: &str) {
    let read = |x: &Lent| (x.lows.clone(), x.highs.clone(), x.tables.clone(), x.numbers.clone());
    if fault == "another hidden level" {
        let last = one.highs.len() - 1;
        one.highs[last] = if one.highs[last] < 2047 { one.highs[last] + 1 } else { 2046.max(one.lows[last]) };
    }
    let numbers = one.numbers.clone();
    tally.count_in("other hidden levels: levels", read(&one) == read(&other), || format!("{numbers:?}"));
    let answers = (one.solve(), other.solve());
    let bits = |x: &Lent| x.totals.iter().copied().map(bits64).collect::<Vec<_>>();
    let alike = equal(&one.six[0], &other.six[0]) && one.clipped == other.clipped && bits(&one) == bits(&other);
    tally.count_in("other hidden levels: solved", answers.0 == answers.1 && (answers.0 != 0 || alike), || {
        format!("{answers:?}, {numbers:?}")
    });
    if answers == (0, 0) {
        let sizes = [0, 1, 2, 3, 4].map(|i| numbers[i]);
        let drawn = |x: &Lent| finish(numbers[27], sizes, &x.six[0], (3 * sizes[2] * sizes[3]) as usize);
        tally.count_in("other hidden levels: pictures", drawn(&one) == drawn(&other), || format!("{numbers:?}"));
    }
}

/// Every k + 0.5 and both neighbours, as the clamped red, green or blue of a pixel: by luma alone, or luma is -128 and one product is the value.
fn ties(tally: &mut Tally) {
    let near = |x: f32| (0..17).map(move |i| f32::from_bits(x.to_bits() - 8 + i));
    let product = |factor: f32, value: f32| near(value / factor).find(|x| factor * x == value);
    for value in (0..255).flat_map(|k| {
        let tie = (k as f32 + 0.5).to_bits();
        [tie - 1, tie, tie + 1].map(f32::from_bits)
    }) {
        // the byte, and luma, cb and cr
        let luma = Some(value - 128.0).filter(|y| y + 128.0 == value);
        let ways = [
            luma.map(|y| (0, [y, 0.0, 0.0])),
            product(1.402, value).map(|cr| (0, [-128.0, 0.0, cr])),
            product(0.34414, value).map(|cb| (1, [-128.0, -cb, 0.0])),
            product(0.71414, value).map(|cr| (1, [-128.0, 0.0, -cr])),
            product(1.772, value).map(|cb| (2, [-128.0, cb, 0.0])),
        ];
        tally.count_in("ties that a pixel can have", ways.iter().any(Option::is_some), || format!("{value}"));
        for (byte, planes) in ways.into_iter().flatten() {
            let planes: Vec<f32> = planes.iter().flat_map(|v| [*v; 64]).collect();
            for rounding in [0, 1] {
                let due = if rounding == 1 { nearest(value) } else { value as u8 };
                let (answer, rgb) = finish(rounding, [8, 8, 1, 1, 3], &planes, 3);
                let right = answer == 0 && rgb[byte] == due;
                tally.count_in("ties and both neighbours", right, || format!("{value}, {rounding}: {rgb:?}"));
            }
        }
    }
}

/// Solves, and holds planes and totals against the published ones and the numbers against the own count; gives the proved planes.
fn solved_as(
    tally: &mut Tally,
    answers: &mut BTreeMap<u32, u64>,
    kind: &str,
    sheet: &Sheet,
    mut x: Lent,
    fault: &str,
) -> Option<Vec<f32>> {
    match fault {
        "the other mode" => x.numbers[5] ^= 1,
        "the other start" => x.numbers[28] ^= 1,
        "the lows for both" => x.highs.clone_from(&x.lows),
        "the highs for both" => x.lows.clone_from(&x.highs),
        "a hidden level let through" => {
            x.highs.iter_mut().skip(63).step_by(64).for_each(|level| *level = (*level + 1).min(2047))
        }
        "the second data weight for the first" => x.numbers[12] = x.numbers[13],
        "one step less" => x.numbers[6] = x.numbers[6].saturating_sub(1),
        "held one step later" => {
            let most = if x.numbers[5] == 1 { [x.numbers[6]; 3] } else { [6, 7, 8].map(|i| x.numbers[i]) };
            (0..3).for_each(|c| x.numbers[29 + c] = (x.numbers[29 + c] + 1).min(most[c].max(x.numbers[29 + c])));
        }
        "held counts in another order" => x.numbers[29..32].rotate_left(1),
        _ => (),
    }
    x.totals.resize(2 * blends(&x.numbers), 7.0);
    let mut answer = x.solve();
    let ([mut plane, ..], mut clipped, mut totals) = (x.six, x.clipped, x.totals);
    *answers.entry(answer).or_default() += 1;
    match fault {
        "the lowest bit of the last value" => {
            plane.iter_mut().last().into_iter().for_each(|v| *v = f32::from_bits(v.to_bits() ^ 1));
        }
        "one coefficient more" => clipped[0] += 1,
        "the lowest bit of the last total" => {
            totals.iter_mut().last().into_iter().for_each(|t| *t = f64::from_bits(t.to_bits() ^ 1));
        }
        "done where blown" if answer == 255 => answer = 0,
        _ => (),
    }
    let due = ended(sheet);
    let equal = match &due {
        None => answer == 255 && clipped.iter().all(|n| *n == 77),
        Some(due) => {
            let bits = |xs: &mut dyn Iterator<Item = f64>| xs.map(bits64).collect::<Vec<_>>();
            let same_totals = bits(&mut totals.iter().copied()) == bits(&mut due.totals.iter().flat_map(|t| t.totals));
            answer == 0 && equal(&plane, &due.planes.concat()) && clipped == due.clipped && same_totals
        }
    };
    tally.count_in(kind, equal, || format!("answer {answer}, blown {}, numbers {:?}", due.is_none(), x.numbers));
    (answer == 0).then_some(plane)
}

/// The picture of the planes, and of any values; then with wrong sizes or lengths.
fn finished(tally: &mut Tally, r: &mut Random, sheet: &Sheet, plane: Option<Vec<f32>>, fault: &str) {
    let all = sheet.channels.len() * (sheet.w * sheet.h) as usize;
    let kind = if plane.is_some() { "pictures" } else { "pictures of any values" };
    let plane = plane
        .unwrap_or_else(|| (0..all).map(|_| if r.one_in(3) { any(r) } else { r.between(-200, 200) as f32 }).collect());
    let sizes = [sheet.w, sheet.h, sheet.picture_w, sheet.picture_h, sheet.channels.len() as u32];
    let mut lent = sizes;
    if fault == "width and height of the picture exchanged" && lent[2].max(lent[3]) <= lent[0].min(lent[1]) {
        lent.swap(2, 3);
    }
    let bytes = (3 * sheet.picture_w * sheet.picture_h) as usize;
    let rounding = u32::from(sheet.rounds() == Rounding::Nearest) ^ u32::from(fault == "the other rounding");
    let (answer, mut rgb) = finish(rounding, lent, &plane, bytes);
    if fault == "a byte of the picture" {
        rgb[0] ^= 1;
    }
    let parts = plane.chunks((sheet.w * sheet.h) as usize).map(<[f32]>::to_vec);
    let due = drawn(sheet, parts.collect()).bytes;
    tally.count_in(kind, answer == 0 && rgb == due, || format!("answer {answer}, sizes {sizes:?}"));

    let (mut rounding, mut lent, mut values, mut length) = (r.below(2) as u32, sizes, all, bytes);
    match r.below(9) {
        2 => rounding = r.pick(&[2, 3, 116, u32::MAX]),
        0 => values = longer(r, values),
        1 => length = longer(r, length),
        _ => lent[r.below(5)] = r.pick(&[0, 1, 2, 3, 4, 8, 12, 16, 64, 512, 513, 520, u32::MAX]),
    }
    let [w, h, width, height, channels] = lent;
    let legal = [w, h].iter().all(|n| n % 8 == 0 && (8..=512).contains(n))
        && (1..=w).contains(&width)
        && (1..=h).contains(&height)
        && (channels == 1 || channels == 3);
    let fits = || values == (channels * w * h) as usize && length == (3 * width * height) as usize;
    let due = if rounding > 1 || !legal {
        13
    } else if !fits() {
        8
    } else {
        0
    };
    if due != 0 {
        let mut values = vec![0.5; values];
        values.iter_mut().zip(&plane).for_each(|(x, y)| *x = *y);
        let (answer, rgb) = finish(rounding, lent, &values, length);
        let kept = rgb.iter().all(|byte| *byte == 7);
        tally
            .count_in("pictures refused", answer == due && kept, || format!("{answer} for {due}, {rounding} {lent:?}"));
    }
}

/// The proved `finish` on bytes that are 7.
fn finish(rounding: u32, sizes: [u32; 5], planes: &[f32], bytes: usize) -> (u32, Vec<u8>) {
    let mut rgb = vec![7; bytes];
    let answer = probe::finish(rounding, sizes, planes, &mut rgb);
    (answer, rgb)
}

fn equal(a: &[f32], b: &[f32]) -> bool {
    a.len() == b.len() && a.iter().zip(b).all(|(x, y)| same(*x, *y))
}

fn faults() -> ExitCode {
    let missed: Vec<_> = FAULTS.into_iter().filter(|fault| compare(400, 1, fault).0.differ() == 0).collect();
    println!("{} kinds of fault planted, {} reported; missed: {missed:?}", FAULTS.len(), FAULTS.len() - missed.len());
    u8::from(!missed.is_empty()).into()
}

fn bench(rounds: usize) -> ExitCode {
    let mut r = Random::new(1);
    for (side, channels, joint, steps, hold) in [
        (32, 3, true, 1000, None),
        (32, 3, false, 1000, None),
        (32, 1, true, 1000, None),
        (32, 3, true, 1000, Some([1000, 100, 100])),
        (512, 3, true, 10, None),
        (512, 3, false, 10, None),
        (512, 1, true, 10, None),
        (512, 3, true, 10, Some([10, 2, 2])),
        (512, 3, true, 50, None),
    ] {
        let mut sheet = full(&mut r, side, joint, steps);
        sheet.channels.truncate(channels);
        let mut x = Lent::read(&mut r, &Sheet { hold, ..sheet.clone() }.text(), Reader::Staff);
        let (mut rust, mut proved, mut planes) = (vec![], vec![], vec![]);
        for _ in 0..rounds {
            rust.push(cpu_of(|| planes = solved(&sheet).concat()));
            proved.push(cpu_of(|| assert_eq!(x.solve(), 0)));
            assert!(hold.is_some() || equal(&x.six[0], &planes), "the planes differ");
        }
        let ((p, p_median), (q, q_median)) = (best_median(rust), best_median(proved));
        let mode = if joint { "joint" } else { "separate" };
        let hold = hold.map_or(String::new(), |counts| format!(", held after {counts:?}, the published without"));
        println!(
            "{side} by {side} by {channels}, {steps} steps, {mode}{hold}: published {p:.3} s (median {p_median:.3}), proved {q:.3} s (median {q_median:.3}), ratio {:.2} (of the medians {:.2})",
            q / p,
            q_median / p_median
        );
    }
    ExitCode::SUCCESS
}
