//! Sheet texts at random: legal ones, and ones damaged at each of document 01's rules; and fixed ones with their answers.
use crate::{
    random::Random,
    sheet::{Channel, Levels, Refusal, Reorder, Rounding, SMOOTH, Sheet, Weight, read},
};
use std::{fs, path::Path};

/// A legal sheet with sides up to `limit` and iteration counts up to `steps`.
pub fn legal(r: &mut Random, limit: u32, steps: u32) -> Sheet {
    let (w, h) = (full_side(r, limit), full_side(r, limit));
    let (channels, ranges) = (r.pick(&[1, 1, 3]), r.pick(&RANGES));
    let sheet = Sheet {
        w,
        h,
        picture_w: picture_side(r, w),
        picture_h: picture_side(r, h),
        joint: r.one_in(2),
        counts: [0; 3].map(|_| r.between(0, steps.into()) as u32),
        smoothing: [0; 3].map(|_| weight(r)),
        data: [0; 3].map(|_| weight(r)),
        rounding: None,
        reorder: None,
        hold: None,
        marks: vec![],
        channels: (0..channels).map(|_| channel(r, w, h, ranges)).collect(),
    };
    // of two sheets in five none, of two in five `n`
    let letters = [None, None, Some(Rounding::Truncate), Some(Rounding::Nearest), Some(Rounding::Nearest)];
    let rounding = letters[(sheet.picture_w + 3 * sheet.picture_h + sheet.counts[0]) as usize % 5];
    // of two sheets in five none, of two in five `o`
    let letters = [None, Some(Reorder::Once), None, Some(Reorder::Each), Some(Reorder::Once)];
    let reorder = letters[(2 * sheet.picture_w + sheet.picture_h + sheet.counts[1]) as usize % 5];
    let (hold, marks) = (hold(&sheet), marks(&sheet));
    Sheet { rounding, reorder, hold, marks, ..sheet }
}

/// A generator by numbers of the sheet's own.
fn own_random(sheet: &Sheet) -> Random {
    let [a, b, c] = sheet.counts.map(u64::from);
    let first = sheet.channels[0].levels.lows.iter().fold(0, |sum, level| 31 * sum % 65_537 + (level & 255) as u64);
    Random::new(first ^ u64::from(sheet.picture_w * sheet.picture_h) << 17 ^ (a + 1001 * (b + 1001 * c)) << 32)
}

/// Lines `N`, by numbers of the sheet's own too: none of two sheets in five, else one, some or all blocks, in any order.
pub fn marks(sheet: &Sheet) -> Vec<[u32; 3]> {
    let mut r = Random::new(own_random(sheet).word());
    let blocks =
        sheet.channels.iter().zip(0..).flat_map(|(own, c)| {
            (0..own.h / 8).flat_map(move |row| (0..own.w / 8).map(move |column| [c, row, column]))
        });
    let mut blocks: Vec<[u32; 3]> = blocks.collect();
    (0..blocks.len()).for_each(|i| blocks.swap(i, r.below(i + 1)));
    let count = [0, 0, 1, 1 + r.below(4), r.below(blocks.len() + 1)][r.below(5)];
    blocks.truncate(count);
    blocks
}

/// The same sheet with other levels in its marked blocks, but for each first level or pair: what a partner may not see.
pub fn hidden(r: &mut Random, sheet: &Sheet) -> Sheet {
    let mut other = sheet.clone();
    let most = r.pick(&[0, 9, 99, 2047]);
    for [c, row, column] in sheet.marks.iter().map(|mark| mark.map(|n| n as usize)) {
        let own = &mut other.channels[c];
        let block = row * (own.w as usize / 8) + column;
        for k in 64 * block + 1..64 * (block + 1) {
            let level = r.between(-most, most) as i32;
            let reach = if own.levels.ranged[block] && r.one_in(2) { r.between(0, 60) as i32 } else { 0 };
            (own.levels.lows[k], own.levels.highs[k]) = (level, (level + reach).min(2047));
        }
    }
    other
}

/// By numbers of the sheet's own, so that the other fields are those of a sheet without the line. Of seven sheets two have no line `H`, one has the iterations' counts; in the others every
/// count is any, or all are 0, or one channel alone is held, or one alone is not.
fn hold(sheet: &Sheet) -> Option<[u32; 3]> {
    let mut r = own_random(sheet);
    let most = Sheet { hold: None, ..sheet.clone() }.holds();
    let one = r.below(3);
    let mut any = || most.map(|n| r.between(0, n.into()) as u32);
    let (any, kind) = (any(), r.below(7));
    match kind {
        0 | 1 => None,
        2 => Some(most),
        3 => Some([0; 3]),
        4 => Some(std::array::from_fn(|c| if c == one { any[c] } else { most[c] })),
        5 => Some(std::array::from_fn(|c| if c == one { most[c] } else { any[c] })),
        _ => Some(any),
    }
}

fn full_side(r: &mut Random, limit: u32) -> u32 {
    let most = if r.one_in(4) { limit / 8 } else { (limit / 8).min(4) };
    8 * r.between(1, most.into()) as u32
}

fn picture_side(r: &mut Random, full: u32) -> u32 {
    if r.one_in(2) { full } else { r.between(1, full.into()) as u32 }
}

pub fn weight(r: &mut Random) -> Weight {
    match r.below(8) {
        0 | 1 => Weight::Whole(0),
        2 => Weight::Whole(r.between(0, 255) as u32),
        3 => Weight::Whole(1),
        4 => Weight::Bits(r.between(0, 0x7f7f_ffff) as u32),
        5 => Weight::Bits(r.pick(&[0, 1, 0x007f_ffff, 0x3f80_0000, 0x7100_0000, 0x7f00_0000, 0x7f7f_ffff])),
        _ => Weight::Bits((r.between(1, 4_000) as f32 / 1_000.0).to_bits()),
    }
}

/// Weights at the ends of what is legal, and where the arithmetic changes.
pub const WEIGHTS: [Weight; 12] = [
    Weight::Whole(0),
    Weight::Whole(1),
    Weight::Whole(255),
    Weight::Bits(0x0000_0001),
    Weight::Bits(0x007f_ffff),
    Weight::Bits(0x0080_0000),
    Weight::Bits(0x3380_0000),
    Weight::Bits(0x7100_0000),
    Weight::Bits(0x7ab5_baae), // the largest data weight with a finite alpha, and the next
    Weight::Bits(0x7ab5_baaf),
    Weight::Bits(0x7f00_0000),
    Weight::Bits(0x7f7f_ffff),
];

/// A factor and an own side; half of them cover as much as they can.
fn cover(r: &mut Random, full: u32) -> (u32, u32) {
    let factor = r.between(1, (full / 8).min(4).into()) as u32;
    let most = (full / 8 / factor).min(8);
    (factor, 8 * if r.one_in(2) { most } else { r.between(1, most.into()) as u32 })
}

/// Of a sheet: one block in how many has a line `G` (none where 0), and how far its ranges reach to either side. Of five sheets two have none, and one has equal pairs.
pub const RANGES: [(usize, i64); 10] =
    [(0, 0), (0, 0), (0, 0), (0, 0), (2, 0), (1, 0), (2, 1), (2, 5), (1, 60), (3, 4094)];

fn channel(r: &mut Random, full_w: u32, full_h: u32, ranges: (usize, i64)) -> Channel {
    let ((across, w), (down, h)) = (cover(r, full_w), cover(r, full_h));
    let table = table(r);
    Channel { w, h, across, down, table, levels: levels(r, w * h / 64, ranges) }
}

pub fn table(r: &mut Random) -> Vec<u32> {
    let most = r.pick(&[1, 2, 24, 255]);
    (0..64).map(|_| r.between(1, most) as u32).collect()
}

/// Of so many blocks.
pub fn levels(r: &mut Random, blocks: u32, (share, reach): (usize, i64)) -> Levels {
    let mut levels: Levels = (0..blocks).flat_map(|_| block(r)).collect();
    for b in 0..levels.ranged.len() {
        levels.ranged[b] = share > 0 && r.one_in(share);
        for k in (64 * b..64 * (b + 1)).filter(|_| reach > 0 && levels.ranged[b]) {
            if r.one_in(2) {
                let [below, above] = [0; 2].map(|_| r.between(0, reach) as i32);
                levels.lows[k] = (levels.lows[k] - below).max(-2047);
                levels.highs[k] = (levels.highs[k] + above).min(2047);
            }
        }
    }
    levels
}

/// Many zeros and small levels, as pictures have them; some blocks with all levels at random.
fn block(r: &mut Random) -> [i32; 64] {
    let (most, zeros) = (r.pick(&[0, 1, 9, 60, 2047]), r.pick(&[1, 3, 9]));
    [0; 64].map(|_| if r.one_in(zeros) { r.between(-most, most) as i32 } else { 0 })
}

type Lines = Vec<Vec<Vec<u8>>>;
type Damage = (&'static str, fn(&mut Random, &mut Vec<u8>));

/// Each changes a text; the result may still be legal.
pub const DAMAGES: [Damage; 13] = [
    ("range", |r, text| fields(r, text, |r, line, at, full| line[at] = edge(r, line, at, full))),
    ("spelling", |r, text| fields(r, text, |r, line, at, _| line[at] = misspelt(r, &line[at]))),
    ("two fields", |r, text| {
        fields(r, text, |r, line, at, full| {
            line[at] = edge(r, line, at, full);
            let other = r.below(line.len());
            line[other] = misspelt(r, &line[other]);
        });
    }),
    ("cover", covered),
    ("pair", paired),
    ("marks", marked),
    ("tag", |r, text| {
        fields(r, text, |r, line, _, _| {
            line[0] = r.pick(&["S", "C", "B", "E", "", "b", "BB", "F", "A", "H", "G", "N"]).into()
        });
    }),
    ("field count", field_count),
    ("order of lines", order),
    ("long line", |r, text| fields(r, text, |r, line, at, _| lengthen(r, line, at))),
    ("cut", cut),
    ("after the end", |r, text| text.extend(r.pick(&["\n", "E\n", "x", "S\t8", "\t", "\r\n"]).bytes())),
    ("bytes", bytes),
];

fn split(text: &[u8]) -> Lines {
    let fields = |line: &[u8]| line.split(|b| *b == b'\t').map(<[u8]>::to_vec).collect();
    text.split(|b| *b == b'\n').map(fields).collect()
}

fn join(lines: &Lines) -> Vec<u8> {
    lines.iter().map(|line| line.join(&b'\t')).collect::<Vec<_>>().join(&b'\n')
}

fn tagged(r: &mut Random, lines: &Lines) -> usize {
    let tag =
        r.pick(&["S", "S", "S", "S", "F", "A", "H", "H", "C", "C", "C", "B", "B", "G", "G", "N", "N", "E"]).as_bytes();
    let found: Vec<usize> = (0..lines.len()).filter(|i| lines[*i][0] == tag).collect();
    if found.is_empty() { r.below(lines.len()) } else { r.pick(&found) }
}

/// Edits a line at a field, given the full sides. The fields of the header and the first of the others are the likelier ones.
fn fields(r: &mut Random, text: &mut Vec<u8>, edit: impl Fn(&mut Random, &mut Vec<Vec<u8>>, usize, [u32; 2])) {
    let mut lines = split(text);
    let full = [1, 2].map(|i| lines[0].get(i).and_then(|f| std::str::from_utf8(f).ok()?.parse().ok()).unwrap_or(8));
    let i = tagged(r, &lines);
    let last = lines[i].len() - 1;
    let at = match r.below(4) {
        0 => last,
        1 => r.below(last + 1),
        _ => r.below(last.min(15) + 1),
    };
    edit(r, &mut lines[i], at, full);
    *text = join(&lines);
}

/// A value at or just beyond the ends of the field's range.
fn edge(r: &mut Random, line: &[Vec<u8>], at: usize, [w, h]: [u32; 2]) -> Vec<u8> {
    let n = |r: &mut Random, values: &[u32]| r.pick(values).to_string().into_bytes();
    let full = if at % 2 == 1 { w } else { h };
    match (line[0].as_slice(), at) {
        (b"S", 1 | 2) => n(r, &[0, 7, 8, 12, 24, 31, 32, 33, 40, 504, 512, 513, 520, 65_544, 999_999, 1_000_000]),
        (b"S", 3 | 4) => n(r, &[0, 1, full, full + 1, w + h, 999_999]),
        (b"S", 5) => n(r, &[0, 1, 2, 3, 4, 13, 999_999]),
        (b"S", 6) => r.pick(&["j", "s", "k", "J", "S", "js", "", "w", "1"]).into(),
        (b"S", 7..=9) => n(r, &[0, 1, 999, 1_000, 1_001, 65_536, 999_999]),
        (b"S", 10..) => odd_weight(r),
        (b"F", 1) => r.pick(&["t", "n", "T", "N", "tn", "", "x", "0", "1"]).into(),
        (b"A", 1) => r.pick(&["m", "o", "M", "O", "mo", "", "t", "n", "0", "1"]).into(),
        (b"H", 1..) => n(r, &[0, 1, 2, 3, 6, 999, 1_000, 1_001, 65_536, 999_999, 1_000_000]),
        (b"N", 1..) => n(r, &[0, 1, 2, 3, w / 8, h / 8, (w / 8).saturating_sub(1), 64, 65_536, 999_999, 1_000_000]),
        (b"C", 1 | 2) => n(r, &[0, 4, 8, 12, full, full + 8, 512, 520, 65_544, 999_992, 999_999]),
        (b"C", 3 | 4) => n(r, &[0, 1, 2, 3, 4, 5, 257, 999_999]),
        (b"C", 5..) => n(r, &[0, 1, 254, 255, 256, 257, 511, 65_537, 999_999]),
        (b"B" | b"G", 1..) => r
            .pick(&[
                "2047", "-2047", "2048", "-2048", "-0", "0", "-1", "-999999", "999999", "65535", "-1000000", "1000000",
            ])
            .into(),
        _ => misspelt(r, &line[at]),
    }
}

fn odd_weight(r: &mut Random) -> Vec<u8> {
    let words = [
        "h7f7fffff",
        "h7f800000",
        "h7f800001",
        "h7fc00000",
        "h80000000",
        "h80000001",
        "hff800000",
        "hffffffff",
        "h00000001",
        "h7F800000",
        "h0000000",
        "h000000000",
        "h0000000g",
        "H00000000",
        "h",
        "hw1",
        "wh00000000",
        "h+0000000",
        "w0",
        "w255",
        "w256",
        "w999999",
        "w1000000",
        "w0256",
        "w00",
        "w",
        "w-1",
        "w+1",
        "W1",
        "ww1",
        "1",
        "",
        "w1 ",
        "w1.0",
    ];
    r.pick(&words).into()
}

fn misspelt(r: &mut Random, field: &[u8]) -> Vec<u8> {
    let (before, after) = r.pick(&[
        ("0", ""),
        ("00", ""),
        ("+", ""),
        ("-", ""),
        ("--", ""),
        (" ", ""),
        ("", " "),
        ("", "\r"),
        ("", "\0"),
        ("", "."),
        ("", "0000000"),
        ("1000000", ""),
        ("x", ""),
        ("", "e"),
        ("0x", ""),
        ("\u{ff}", ""),
        ("", ","),
    ]);
    match r.below(8) {
        0 => vec![],
        1 => r.pick(&["-0", "-", "00", "0", "-00", "1234567", "x", "٣", "1e1", "-01"]).into(),
        _ => [before.as_bytes(), field, after.as_bytes()].concat(),
    }
}

fn covered(r: &mut Random, text: &mut Vec<u8>) {
    let mut lines = split(text);
    let found: Vec<usize> = (0..lines.len()).filter(|i| lines[*i][0] == b"C" && lines[*i].len() > 5).collect();
    if let Some(line) = (!found.is_empty()).then(|| &mut lines[r.pick(&found)]) {
        let at = r.between(1, 4) as usize;
        line[at] = r.pick(if at < 3 { &["8", "16", "24", "32", "40"] } else { &["1", "2", "3", "4"] }).into();
        if r.one_in(3) {
            line[at + 1] = r.pick(&["256", "5", "0", "x"]).into();
        }
    }
    *text = join(&lines);
}

/// Changes a pair of a line `G`, and perhaps a field near it; or writes a line `B` as `G`, with equal pairs.
fn paired(r: &mut Random, text: &mut Vec<u8>) {
    let mut lines = split(text);
    let tagged = |lines: &Lines, tag: &[u8], count: usize| -> Vec<usize> {
        (0..lines.len()).filter(|i| lines[*i][0] == tag && lines[*i].len() == count).collect()
    };
    let (plain, ranged) = (tagged(&lines, b"B", 65), tagged(&lines, b"G", 129));
    if !plain.is_empty() && (ranged.is_empty() || r.one_in(3)) {
        let line = &mut lines[r.pick(&plain)];
        let pairs = line[1..].iter().flat_map(|level| [level.clone(), level.clone()]);
        *line = [b"G".to_vec()].into_iter().chain(pairs).collect();
    } else if !ranged.is_empty() {
        let line = &mut lines[r.pick(&ranged)];
        let pair = r.pick(&[0, 63, 0, 1, 7, 31]);
        let words = [
            ["2", "1"],
            ["-1", "-2"],
            ["2047", "-2047"],
            ["1", "1"],
            ["-2047", "2047"],
            ["2048", "2047"],
            ["5", "-2048"],
            ["2048", "x"],
            ["5", "-0"],
            ["x", "0"],
        ];
        let [low, high] = r.pick(&words);
        (line[2 * pair + 1], line[2 * pair + 2]) = (low.into(), high.into());
        if r.one_in(2) {
            let other = (2 * pair).saturating_add_signed(r.between(-3, 6) as isize).clamp(1, 128);
            line[other] = r.pick(&["2048", "x", "-2047", "2047", "-0", "1"]).into();
        }
    }
    *text = join(&lines);
}

/// The line of the block that a line `N` marks, where there is one.
fn marked_block(lines: &Lines, mark: &[Vec<u8>]) -> Option<usize> {
    let number = |field: &[u8]| std::str::from_utf8(field).ok()?.parse::<usize>().ok();
    let [c, row, column] = [1, 2, 3].map(|i| mark.get(i).and_then(|field| number(field)));
    let own = (0..lines.len()).filter(|i| lines[*i][0] == b"C").nth(c?)?;
    let at = own + 1 + row? * (number(lines[own].get(1)?)? / 8) + column?;
    lines.get(at).filter(|line| line.len() > 64).map(|_| at)
}

/// Adds lines `N`, right ones and wrong ones, moves or misspells one, or damages a block that is marked.
fn marked(r: &mut Random, text: &mut Vec<u8>) {
    let mut lines = split(text);
    let end = lines.iter().rposition(|line| line[0] == b"E").unwrap_or(lines.len());
    let line = |numbers: [String; 3]| [&["N".to_string()], &numbers[..]].concat().into_iter().map(Vec::from).collect();
    if !lines.iter().any(|line| line[0] == b"N") {
        lines.insert(end, line([0; 3].map(|n: u32| n.to_string())));
    }
    let found: Vec<usize> = (0..lines.len()).filter(|i| lines[*i][0] == b"N").collect();
    let mark = r.pick(&found);
    let block = marked_block(&lines, &lines[mark]);
    let at = |r: &mut Random| if r.one_in(2) { r.pick(&[1, 2, 3, 64]) } else { r.between(2, 64) as usize };
    match (r.below(10), block) {
        (0, _) => lines.insert(mark, line([2, 4, 4].map(|most| r.between(0, most).to_string()))),
        (1, _) => lines.insert(mark, line([0; 3].map(|_| r.pick(&["0", "1", "3", "4", "64", "x", "00", "-1"]).into()))),
        (2, _) => lines.insert(r.pick(&found), lines[mark].clone()),
        (3, _) => {
            let moved = lines.remove(mark);
            lines.insert(r.below(lines.len() + 1), moved);
        }
        (4, _) => {
            let field = r.below(lines[mark].len());
            lines[mark][field] = misspelt(r, &lines[mark][field]);
        }
        (5, _) if lines[mark].len() > 3 => lines[mark].swap(2, 3),
        (6 | 7, Some(block)) if lines[block][0] == b"B" => {
            lines[block][at(r)] = r.pick(&["2048", "-2048", "2047", "-0", "x", "999999"]).into();
        }
        (6 | 7, Some(block)) if lines[block].len() == 129 => {
            let pair = at(r);
            let words =
                [["2", "1"], ["2047", "-2047"], ["2048", "2048"], ["-2048", "0"], ["5", "-0"], ["-2047", "2047"]];
            let [low, high] = r.pick(&words);
            (lines[block][2 * pair - 1], lines[block][2 * pair]) = (low.into(), high.into());
        }
        (8, Some(block)) => lines[block][1] = r.pick(&["7", "2047", "2048"]).into(),
        _ => {
            let next = (mark + 1).min(lines.len() - 1);
            lines.swap(mark, next);
        }
    }
    *text = join(&lines);
}

fn field_count(r: &mut Random, text: &mut Vec<u8>) {
    fields(r, text, |r, line, at, _| match r.below(4) {
        0 => drop(line.remove(at)),
        1 => line.insert(at, line[at].clone()),
        2 => line.push(vec![]),
        _ => line.insert(at, vec![]),
    });
}

fn order(r: &mut Random, text: &mut Vec<u8>) {
    let mut lines = split(text);
    let (i, j) = (tagged(r, &lines), r.below(lines.len()));
    match r.below(5) {
        0 => drop(lines.remove(i)),
        1 => lines.insert(i, lines[i].clone()),
        2 => lines.swap(i, j),
        3 => lines.insert(i, vec![vec![]]),
        _ => lines.insert(j, lines[i].clone()),
    }
    *text = join(&lines);
}

/// Makes the line 1,023 to 1,026 bytes long, or much longer.
fn lengthen(r: &mut Random, line: &mut [Vec<u8>], at: usize) {
    let length: usize = line.iter().map(|f| f.len() + 1).sum::<usize>() - 1;
    let aim = r.pick(&[1023, 1024, 1024, 1025, 1025, 1026, 1500]);
    line[at].extend(vec![b'0'; aim - length.min(aim)]);
}

fn cut(r: &mut Random, text: &mut Vec<u8>) {
    let ends: Vec<usize> = (0..text.len()).filter(|i| text[*i] == b'\n').collect();
    match r.below(4) {
        0 => text.truncate(text.len().saturating_sub(1)),
        1 if !ends.is_empty() => text.truncate(r.pick(&ends)),
        2 if !ends.is_empty() => text.truncate(r.pick(&ends) + 1),
        _ => text.truncate(r.below(text.len() + 1)),
    }
}

fn bytes(r: &mut Random, text: &mut Vec<u8>) {
    let at = r.below(text.len().max(1));
    let byte = r.pick(b"\t\n\r\0 -+0189wxhjsSFAHCBGNE\xff\xc3");
    match r.below(6) {
        0 => *text = String::from_utf8_lossy(text).replace('\n', r.pick(&["\r\n", "\r", "\n\n"])).into_bytes(),
        1 | 2 => text.insert(at.min(text.len()), byte),
        3 if at < text.len() => drop(text.remove(at)),
        _ if at < text.len() => text[at] = byte,
        _ => text.push(byte),
    }
}

/// The fixed texts, then `count` texts at random: legal ones, damaged ones, doubly damaged ones. Each with its kind.
pub fn all(seed: u64, count: u64, limit: u32, steps: u32) -> Vec<(&'static str, Vec<u8>)> {
    let mut r = Random::new(seed);
    let mut all: Vec<_> = fixed().into_iter().map(|(_, text, _)| ("fixed text", text)).collect();
    all.extend(fixed_runs().into_iter().map(|(_, sheet, _)| ("fixed sheet", sheet.text())));
    for i in 0..count {
        let (kind, damages) = [("legal", 0), ("damaged", 1), ("doubly damaged", 2)][(3 * i / count) as usize];
        let mut text = legal(&mut r, limit, steps).text();
        for _ in 0..damages {
            let (_, damage) = if r.one_in(3) { DAMAGES[0] } else { r.pick(&DAMAGES) };
            damage(&mut r, &mut text);
        }
        all.push((kind, text));
    }
    all
}

/// Document 01's whole example.
pub fn example() -> Vec<u8> {
    let (table, levels) = ("\t8".repeat(64), "\t0".repeat(63));
    format!("S 8 8 2 1 1 s 0 0 0 w0 w0 w0 w0 w0 w0\nC 8 8 1 1{table}\nB 1{levels}\nE\n").replace(' ', "\t").into_bytes()
}

/// Line from 0, field (the tag is 0), word.
pub type Edit = (usize, usize, &'static str);

/// The example with other fields.
pub fn edited(edits: &[Edit]) -> Vec<u8> {
    let mut lines = split(&example());
    for (line, field, word) in edits {
        lines[*line][*field] = (*word).into();
    }
    join(&lines)
}

/// Texts that tell readings of document 01 apart, with what document 01 gives at the limit 32: None is a legal text.
pub fn fixed() -> Vec<(&'static str, Vec<u8>, Option<Refusal>)> {
    const S: usize = 0;
    const C: usize = 1;
    const B: usize = 2;
    let whole = example();
    let lines: Vec<&[u8]> = whole.split_inclusive(|b| *b == b'\n').collect();
    let padded = |length: usize| {
        let short = edited(&[(S, 1, "9")]);
        let end = short.iter().position(|b| *b == b'\n').expect("a line");
        [&short[..end], &vec![b'0'; length - end], &short[end..]].concat()
    };
    let more = |end: &[u8]| [whole.as_slice(), end].concat();
    let replaced = |old: &str, new: &str| String::from_utf8_lossy(&whole).replacen(old, new, 99).into_bytes();
    let mut all: Vec<(&'static str, Vec<u8>, Option<Refusal>)> = vec![
        ("the whole example", whole.clone(), None),
        ("long and unended", vec![b'a'; 1025], Some((1, 1))),
        ("unended at the longest", vec![b'a'; 1024], Some((7, 1))),
        ("longest line, field bad", padded(1024), Some((2, 1))),
        ("long line, field bad", padded(1025), Some((1, 1))),
        ("unended wins over content", b"x".into(), Some((7, 1))),
        ("third line unended", [lines[0], lines[1], &lines[2][..lines[2].len() - 1]].concat(), Some((7, 3))),
        ("E unended", whole[..whole.len() - 1].into(), Some((7, 4))),
        ("no bytes", vec![], Some((7, 1))),
        ("header alone", lines[0].into(), Some((7, 2))),
        ("no E", lines[..3].concat(), Some((7, 4))),
        ("E alone", lines[3].into(), Some((1, 1))),
        ("E too early", [lines[0], lines[3]].concat(), Some((1, 2))),
        ("E too early, then a byte", [lines[0], lines[3], b"x"].concat(), Some((1, 2))),
        ("B for E", [lines[0], lines[1], lines[2], lines[2]].concat(), Some((1, 4))),
        ("E with a tab", replaced("E", "E\t"), Some((1, 4))),
        ("E with byte 13", replaced("E", "E\r"), Some((1, 4))),
        ("line feed after E", more(b"\n"), Some((7, 5))),
        ("long line after E", more(&[b'a'; 1025]), Some((7, 5))),
        ("S after E", more(b"S"), Some((7, 5))),
        ("empty line", b"\n".into(), Some((1, 1))),
        ("empty line first", [b"\n", whole.as_slice()].concat(), Some((1, 1))),
        ("tag alone", b"S\n".into(), Some((1, 1))),
        ("tab at the header's end", replaced("w0\n", "w0\t\n"), Some((1, 1))),
        ("doubled tab", replaced("S\t", "S\t\t"), Some((1, 1))),
        ("lines end with 13 10", replaced("\n", "\r\n"), Some((1, 1))),
        ("lines end with 13", replaced("\n", "\r"), Some((7, 1))),
        ("byte order mark", replaced("S", "\u{feff}S"), Some((1, 1))),
    ];
    let edits: [(&[Edit], Option<Refusal>); 65] = [
        (&[(S, 1, "12"), (S, 2, "x")], Some((2, 1))), // range of a field before the spelling of a later one
        (&[(B, 1, "2048"), (B, 2, "-0")], Some((5, 3))),
        (&[(C, 3, "5"), (C, 5, "0")], Some((3, 2))),
        (&[(S, 6, "k"), (S, 7, "1001")], Some((1, 1))),
        (&[(S, 6, "js")], Some((1, 1))),
        (&[(S, 6, "J")], Some((1, 1))),
        (&[(S, 6, "")], Some((1, 1))),
        (&[(S, 6, "j")], None),
        (&[(C, 1, "16"), (C, 68, "256")], Some((4, 2))), // cover after all fields of its line
        (&[(C, 3, "2")], Some((2, 2))),
        (&[(C, 4, "2")], Some((2, 2))),
        (&[(C, 1, "520"), (C, 3, "5")], Some((3, 2))), // own sides have no upper end of their own
        (&[(C, 1, "999992"), (C, 3, "4")], Some((2, 2))),
        (&[(C, 1, "65544")], Some((2, 2))),
        (&[(C, 1, "0")], Some((2, 2))),
        (&[(C, 1, "12")], Some((2, 2))),
        (&[(C, 3, "0")], Some((3, 2))),
        (&[(C, 4, "5")], Some((3, 2))),
        (&[(S, 1, "40"), (S, 6, "k")], Some((2, 1))), // the limit 32 at its field
        (&[(S, 1, "40"), (S, 2, "x")], Some((2, 1))),
        (&[(S, 1, "520")], Some((2, 1))),
        (&[(S, 1, "40")], Some((2, 1))),
        (&[(S, 1, "32")], None),
        (&[(S, 2, "32")], None),
        (&[(S, 1, "0")], Some((2, 1))),
        (&[(S, 1, "1000000")], Some((1, 1))),
        (&[(S, 1, "999999")], Some((2, 1))),
        (&[(S, 1, "08")], Some((1, 1))),
        (&[(S, 1, "-8")], Some((1, 1))),
        (&[(S, 1, "+8")], Some((1, 1))),
        (&[(S, 3, "0")], Some((2, 1))),
        (&[(S, 3, "9")], Some((2, 1))),
        (&[(S, 4, "9")], Some((2, 1))),
        (&[(S, 2, "x"), (S, 3, "9")], Some((1, 1))),
        (&[(S, 5, "2"), (S, 6, "x")], Some((2, 1))),
        (&[(S, 5, "0")], Some((2, 1))),
        (&[(S, 5, "4")], Some((2, 1))),
        (&[(S, 5, "3")], Some((1, 4))),    // E where a second channel is due
        (&[(S, 9, "1001")], Some((2, 1))), // spare fields must be legal
        (&[(S, 9, "1000")], None),
        (&[(S, 15, "x")], Some((1, 1))),
        (&[(B, 64, "-0")], Some((1, 3))),
        (&[(B, 64, "-999999")], Some((5, 3))),
        (&[(B, 64, "-1000000")], Some((1, 3))),
        (&[(B, 64, "-01")], Some((1, 3))),
        (&[(B, 64, "-2047")], None),
        (&[(B, 64, "-2048")], Some((5, 3))),
        (&[(B, 64, "2048")], Some((5, 3))),
        (&[(C, 68, "255")], None),
        (&[(C, 68, "256")], Some((4, 2))),
        (&[(C, 68, "0")], Some((4, 2))),
        (&[(S, 15, "w255")], None),
        (&[(S, 15, "w256")], Some((6, 1))),
        (&[(S, 15, "w0256")], Some((1, 1))),
        (&[(S, 15, "w1000000")], Some((1, 1))),
        (&[(S, 15, "w")], Some((1, 1))),
        (&[(S, 15, "w-1")], Some((1, 1))),
        (&[(S, 15, "1")], Some((1, 1))),
        (&[(S, 15, "hw1")], Some((1, 1))),
        (&[(S, 15, "h7F800000")], Some((1, 1))),
        (&[(S, 15, "h0000000")], Some((1, 1))),
        (&[(S, 15, "h80000000")], Some((6, 1))),
        (&[(S, 15, "h7f800001")], Some((6, 1))),
        (&[(S, 15, "h7f800000")], Some((6, 1))),
        (&[(S, 15, "h00000001")], None),
    ];
    // line `F`: only directly after `S`, once, with `t` or `n`
    let before = |i: usize, more: &[u8]| [&lines[..i].concat(), more, &lines[i..].concat()].concat();
    all.extend([
        ("F t", before(1, b"F\tt\n"), None),
        ("F n", before(1, b"F\tn\n"), None),
        ("F twice", before(1, b"F\tn\nF\tn\n"), Some((1, 3))),
        ("F first", before(0, b"F\tn\n"), Some((1, 1))),
        ("F after C", before(2, b"F\tn\n"), Some((1, 3))),
        ("F after B", before(3, b"F\tn\n"), Some((1, 4))),
        ("F after E", before(4, b"F\tn\n"), Some((7, 5))),
        ("F x", before(1, b"F\tx\n"), Some((1, 2))),
        ("F N", before(1, b"F\tN\n"), Some((1, 2))),
        ("F tn", before(1, b"F\ttn\n"), Some((1, 2))),
        ("F, no letter", before(1, b"F\t\n"), Some((1, 2))),
        ("F, one field", before(1, b"F\n"), Some((1, 2))),
        ("F, three fields", before(1, b"F\tn\tn\n"), Some((1, 2))),
        ("S, F and no more", [lines[0], b"F\tn\n"].concat(), Some((7, 3))),
        ("F unended", [lines[0], b"F\tn"].concat(), Some((7, 2))),
        ("F, then E", [lines[0], b"F\tn\n", lines[3]].concat(), Some((1, 3))),
        ("F, long", before(1, &[b"F\t".as_slice(), &[b'n'; 1023], b"\n"].concat()), Some((1, 2))),
    ]);
    // line `A`: only directly after `S` or `F`, once, with `m` or `o`
    all.extend([
        ("A m", before(1, b"A\tm\n"), None),
        ("A o", before(1, b"A\to\n"), None),
        ("F, then A", before(1, b"F\tn\nA\to\n"), None),
        ("A, then F", before(1, b"A\to\nF\tn\n"), Some((1, 3))),
        ("A twice", before(1, b"A\to\nA\to\n"), Some((1, 3))),
        ("F, then A twice", before(1, b"F\tn\nA\to\nA\to\n"), Some((1, 4))),
        ("F, A, then F", before(1, b"F\tn\nA\to\nF\tn\n"), Some((1, 4))),
        ("A first", before(0, b"A\to\n"), Some((1, 1))),
        ("A after C", before(2, b"A\to\n"), Some((1, 3))),
        ("A after B", before(3, b"A\to\n"), Some((1, 4))),
        ("A after E", before(4, b"A\to\n"), Some((7, 5))),
        ("A t", before(1, b"A\tt\n"), Some((1, 2))),
        ("A O", before(1, b"A\tO\n"), Some((1, 2))),
        ("A mo", before(1, b"A\tmo\n"), Some((1, 2))),
        ("A, no letter", before(1, b"A\t\n"), Some((1, 2))),
        ("A, one field", before(1, b"A\n"), Some((1, 2))),
        ("A, three fields", before(1, b"A\to\to\n"), Some((1, 2))),
        ("F bad, then A bad", before(1, b"F\tx\nA\tx\n"), Some((1, 2))),
        ("F, then A bad", before(1, b"F\tn\nA\tx\n"), Some((1, 3))),
        ("S, A and no more", [lines[0], b"A\to\n"].concat(), Some((7, 3))),
        ("S, F, A and no more", [lines[0], b"F\tn\nA\to\n"].concat(), Some((7, 4))),
        ("A unended", [lines[0], b"A\to"].concat(), Some((7, 2))),
        ("A, then E", [lines[0], b"A\to\n", lines[3]].concat(), Some((1, 3))),
        ("A, long", before(1, &[b"A\t".as_slice(), &[b'o'; 1023], b"\n"].concat()), Some((1, 2))),
    ]);
    // line `H`: only directly after `S`, `F` or `A`, once, with three counts, each within the iterations it is measured against
    let counts = |j: &'static str, counts: [&'static str; 3], line: &[u8]| {
        let [a, b, c] = counts;
        let text = edited(&[(S, 6, j), (S, 7, a), (S, 8, b), (S, 9, c)]);
        let end = text.iter().position(|b| *b == b'\n').expect("a line") + 1;
        [&text[..end], line, &text[end..]].concat()
    };
    let three = |text: Vec<u8>, line: &[u8]| {
        let text = String::from_utf8(text)
            .expect("text")
            .replacen("\t1\ts\t", "\t3\ts\t", 1)
            .replacen("\t1\tj\t", "\t3\tj\t", 1);
        let end = text.find('\n').expect("a line") + 1;
        let channel = [lines[1], lines[2]].concat();
        [text[..end].as_bytes(), line, &channel.repeat(3), b"E\n"].concat()
    };
    all.extend([
        ("H", before(1, b"H\t0\t0\t0\n"), None),
        ("F, A, then H", before(1, b"F\tn\nA\to\nH\t0\t0\t0\n"), None),
        ("F, then H", before(1, b"F\tn\nH\t0\t0\t0\n"), None),
        ("A, then H", before(1, b"A\to\nH\t0\t0\t0\n"), None),
        ("H, then A", before(1, b"H\t0\t0\t0\nA\to\n"), Some((1, 3))),
        ("H, then F", before(1, b"H\t0\t0\t0\nF\tn\n"), Some((1, 3))),
        ("H twice", before(1, b"H\t0\t0\t0\nH\t0\t0\t0\n"), Some((1, 3))),
        ("H first", before(0, b"H\t0\t0\t0\n"), Some((1, 1))),
        ("H after C", before(2, b"H\t0\t0\t0\n"), Some((1, 3))),
        ("H after B", before(3, b"H\t0\t0\t0\n"), Some((1, 4))),
        ("H after E", before(4, b"H\t0\t0\t0\n"), Some((7, 5))),
        ("H, one count", before(1, b"H\t0\n"), Some((1, 2))),
        ("H, two counts", before(1, b"H\t0\t0\n"), Some((1, 2))),
        ("H, four counts", before(1, b"H\t0\t0\t0\t0\n"), Some((1, 2))),
        ("H, above the iterations", before(1, b"H\t1\t0\t0\n"), Some((17, 2))),
        ("H, above, then a spelling", before(1, b"H\t1\tx\t0\n"), Some((17, 2))),
        ("H, a spelling, then above", before(1, b"H\tx\t1\t0\n"), Some((1, 2))),
        ("H, a zero before", before(1, b"H\t00\t0\t0\n"), Some((1, 2))),
        ("H, an empty count", before(1, b"H\t\t0\t0\n"), Some((1, 2))),
        ("H, below 0", before(1, b"H\t-1\t0\t0\n"), Some((1, 2))),
        ("H, seven digits", before(1, b"H\t1000000\t0\t0\n"), Some((1, 2))),
        ("H, six digits", before(1, b"H\t999999\t0\t0\n"), Some((17, 2))),
        ("H, above 1,000", counts("s", ["1000", "0", "0"], b"H\t1001\t0\t0\n"), Some((17, 2))),
        ("H, spare counts, by place", counts("s", ["2", "0", "0"], b"H\t2\t1\t0\n"), Some((17, 2))),
        ("H, the last", counts("s", ["2", "1", "0"], b"H\t2\t1\t1\n"), Some((17, 2))),
        ("H, spare counts in joint mode", counts("j", ["2", "0", "0"], b"H\t2\t2\t0\n"), Some((17, 2))),
        ("H, spare counts legal", counts("j", ["2", "3", "4"], b"H\t2\t3\t4\n"), None),
        ("H, three channels, joint", three(counts("j", ["1", "0", "0"], b""), b"H\t0\t1\t1\n"), None),
        (
            "H, three channels, joint, above the first",
            three(counts("j", ["1", "2", "2"], b""), b"H\t1\t2\t1\n"),
            Some((17, 2)),
        ),
        ("H, three channels, separate", three(counts("s", ["1", "0", "0"], b""), b"H\t0\t1\t1\n"), Some((17, 2))),
        ("H, three channels, separate, by place", three(counts("s", ["1", "2", "3"], b""), b"H\t0\t2\t3\n"), None),
        ("H after A bad", before(1, b"A\tx\nH\t1\t0\t0\n"), Some((1, 2))),
        ("H bad after A", before(1, b"F\tn\nA\to\nH\t1\t0\t0\n"), Some((17, 4))),
        ("H bad, then C bad", before(1, b"H\t0\t1\t0\nC\n"), Some((17, 2))),
        ("S, H and no more", [lines[0], b"H\t0\t0\t0\n"].concat(), Some((7, 3))),
        ("H unended", [lines[0], b"H\t0\t0\t1"].concat(), Some((7, 2))),
        ("H, then E", [lines[0], b"H\t0\t0\t0\n", lines[3]].concat(), Some((1, 3))),
        ("H, long", before(1, &[b"H\t1\t0\t".as_slice(), &[b'0'; 1023], b"\n"].concat()), Some((1, 2))),
        ("h", before(1, b"h\t0\t0\t0\n"), Some((1, 2))),
    ]);
    // line `G` in place of `B`: 64 pairs, each judged before the next
    let ranged = |pairs: &str| {
        let zeros = 128 - pairs.split_whitespace().count();
        format!("G {pairs}{}\n", " 0".repeat(zeros)).replace(' ', "\t").into_bytes()
    };
    let in_place = |block: &[u8]| [lines[0], lines[1], block, lines[3]].concat();
    all.extend([
        ("G", in_place(&ranged("1 4")), None),
        ("G, equal pairs", in_place(&ranged("1 1")), None),
        ("G, the widest range", in_place(&ranged("-2047 2047")), None),
        ("G, low above high", in_place(&ranged("2 1")), Some((14, 3))),
        ("G, then a later spelling", in_place(&ranged("2 1 x 0")), Some((14, 3))),
        ("G, then a later level", in_place(&ranged("2 1 2048 2048")), Some((14, 3))),
        ("G, an earlier level", in_place(&ranged("2048 2048 2 1")), Some((5, 3))),
        ("G, the high beyond", in_place(&ranged("5 -2048")), Some((5, 3))),
        ("G, the low beyond, the high misspelt", in_place(&ranged("2048 x")), Some((5, 3))),
        ("G, the high misspelt", in_place(&ranged("5 -0")), Some((1, 3))),
        ("G, the low beyond, above the high", in_place(&ranged("2048 2047")), Some((5, 3))),
        ("G, the last pair", in_place(&ranged(&("0 ".repeat(126) + "0 -1"))), Some((14, 3))),
        (
            "G with 64 fields",
            in_place(&replaced("B", "G")[lines[0].len() + lines[1].len()..][..lines[2].len()]),
            Some((1, 3)),
        ),
        ("B with 128 fields", in_place(&[b"B", &ranged("1 1")[1..]].concat()), Some((1, 3))),
        ("G with 127 fields", in_place(&[&ranged("1 1")[..256], b"\n"].concat()), Some((1, 3))),
        ("G and B", before(2, &ranged("1 1")), Some((1, 4))),
        ("G for C", before(1, &ranged("1 1")), Some((1, 2))),
        ("G after F", before(1, &[b"F\tn\n".to_vec(), ranged("1 1")].concat()), Some((1, 3))),
        ("G first", before(0, &ranged("1 1")), Some((1, 1))),
        ("G after B", before(3, &ranged("1 1")), Some((1, 4))),
        ("G after E", before(4, &ranged("1 1")), Some((7, 5))),
        ("G unended", [lines[0], lines[1], &ranged("1 1")[..257]].concat(), Some((7, 3))),
        ("G and no more", [lines[0], lines[1], &ranged("1 1")].concat(), Some((7, 4))),
        ("G, long", in_place(&ranged(&format!("2 1 {}", "0".repeat(900)))), Some((1, 3))),
    ]);
    // lines `N`: after the last block line, each block of the sheet at most once
    let wide = |line: &[u8]| {
        let text = edited(&[(S, 1, "16"), (C, 1, "16")]);
        let text = String::from_utf8(text).expect("text").replacen("\nE", &format!("\nB{}\nE", "\t0".repeat(64)), 1);
        [&text.as_bytes()[..text.len() - 2], line, b"E\n"].concat()
    };
    // the block marked, its levels 1 but for some from a field on
    let hiding = |tag: u8, from: usize, words: &[&str]| {
        let mut block = vec!["1"; if tag == b'G' { 128 } else { 64 }];
        block[from - 1..][..words.len()].copy_from_slice(words);
        [lines[0], lines[1], &[tag], b"\t", block.join("\t").as_bytes(), b"\nN\t0\t0\t0\nE\n"].concat()
    };
    let channel = [lines[1], lines[2]].concat();
    let header = edited(&[(S, 5, "3")])[..lines[0].len()].to_vec();
    all.extend([
        ("N", before(3, b"N\t0\t0\t0\n"), None),
        ("N, the second block", wide(b"N\t0\t0\t1\n"), None),
        ("N, both blocks, in any order", wide(b"N\t0\t0\t1\nN\t0\t0\t0\n"), None),
        ("N, row and column exchanged", wide(b"N\t0\t1\t0\n"), Some((18, 5))),
        ("N twice", before(3, b"N\t0\t0\t0\nN\t0\t0\t0\n"), Some((18, 5))),
        ("N twice, another between", wide(b"N\t0\t0\t1\nN\t0\t0\t0\nN\t0\t0\t1\n"), Some((18, 7))),
        ("N, no such channel", before(3, b"N\t1\t0\t0\n"), Some((18, 4))),
        ("N, no such row", before(3, b"N\t0\t1\t0\n"), Some((18, 4))),
        ("N, no such column", before(3, b"N\t0\t0\t1\n"), Some((18, 4))),
        ("N, no such channel, then a spelling", before(3, b"N\t9\tx\t0\n"), Some((1, 4))),
        ("N, no such block, then a spelling", before(3, b"N\t0\t9\t-1\n"), Some((1, 4))),
        ("N, below 0", before(3, b"N\t-1\t0\t0\n"), Some((1, 4))),
        ("N, a zero before", before(3, b"N\t0\t00\t0\n"), Some((1, 4))),
        ("N, six digits", before(3, b"N\t999999\t0\t0\n"), Some((18, 4))),
        ("N, seven digits", before(3, b"N\t1000000\t0\t0\n"), Some((1, 4))),
        ("N, 65536", before(3, b"N\t65536\t0\t0\n"), Some((18, 4))),
        ("N, two numbers", before(3, b"N\t0\t0\n"), Some((1, 4))),
        ("N, four numbers", before(3, b"N\t0\t0\t0\t0\n"), Some((1, 4))),
        ("N, an empty number", before(3, b"N\t0\t\t0\n"), Some((1, 4))),
        ("N before B", before(2, b"N\t0\t0\t0\n"), Some((1, 3))),
        ("N before C", before(1, b"N\t0\t0\t0\n"), Some((1, 2))),
        ("N first", before(0, b"N\t0\t0\t0\n"), Some((1, 1))),
        ("N after E", before(4, b"N\t0\t0\t0\n"), Some((7, 5))),
        ("N, then B", before(3, &[b"N\t0\t0\t0\n", lines[2]].concat()), Some((1, 5))),
        ("N, then C", before(3, &[b"N\t0\t0\t0\n", lines[1]].concat()), Some((1, 5))),
        ("N, then F", before(3, b"N\t0\t0\t0\nF\tn\n"), Some((1, 5))),
        (
            "N between channels",
            [&header, &channel[..], b"N\t0\t0\t0\n", &channel, &channel, b"E\n"].concat(),
            Some((1, 4)),
        ),
        ("N of the third channel", [&header, &channel.repeat(3)[..], b"N\t2\t0\t0\nE\n"].concat(), None),
        ("N and no more", [&lines[..3].concat(), &b"N\t0\t0\t0\n"[..]].concat(), Some((7, 5))),
        ("N unended", [&lines[..3].concat(), &b"N\t9\t0\t0"[..]].concat(), Some((7, 4))),
        ("N, long", before(3, &[b"N\t0\t0\t".as_slice(), &[b'0'; 1023], b"\n"].concat()), Some((1, 4))),
        ("n", before(3, b"n\t0\t0\t0\n"), Some((1, 4))),
        ("N, hidden levels at both ends", hiding(b'B', 2, &["2047", "-2047"]), None),
        ("N, a hidden level beyond", hiding(b'B', 2, &["2048"]), Some((5, 3))),
        ("N, the last hidden level beyond", hiding(b'B', 64, &["-2048"]), Some((5, 3))),
        ("N, a hidden level misspelt", hiding(b'B', 3, &["-0"]), Some((1, 3))),
        ("N, a hidden range", hiding(b'G', 3, &["-2047", "2047"]), None),
        ("N, a hidden low above its high", hiding(b'G', 3, &["2", "1"]), Some((14, 3))),
        ("N, the last hidden low above its high", hiding(b'G', 127, &["0", "-1"]), Some((14, 3))),
        ("N, a hidden high beyond", hiding(b'G', 4, &["2048"]), Some((5, 3))),
        ("N, the first pair a range", hiding(b'G', 1, &["-3", "9"]), None),
    ]);
    all.extend(edits.iter().map(|(edits, answer)| ("an edited field", edited(edits), *answer)));
    all
}

/// Texts that tell readings of M-106 apart, each with the caller's limit of iterations and what document 02 gives at it; the side limit is 32. None is a
/// legal text.
pub fn paged() -> Vec<(Vec<u8>, u32, Option<Refusal>)> {
    let (whole, end) = (example(), example().iter().position(|b| *b == b'\n').expect("a line"));
    let long = |length: usize| {
        let short = edited(&[(0, 7, "51")]);
        [&short[..end + 1], &vec![b'0'; length - end - 1], &short[end + 1..]].concat()
    };
    let bad_f = String::from_utf8_lossy(&edited(&[(0, 7, "51")])).replacen("w0\n", "w0\nF\tx\n", 1).into_bytes();
    let counts = |a: &'static str, b: &'static str, c: &'static str| edited(&[(0, 7, a), (0, 8, b), (0, 9, c)]);
    vec![
        (counts("50", "50", "50"), 50, None),
        (counts("51", "0", "0"), 50, Some((15, 1))),
        (counts("0", "51", "0"), 50, Some((15, 1))), // spare counts too
        (counts("0", "0", "51"), 50, Some((15, 1))),
        (counts("1001", "0", "0"), 50, Some((2, 1))), // above 1,000 before the limit
        (counts("999999", "0", "0"), 50, Some((2, 1))),
        (counts("1000000", "0", "0"), 50, Some((1, 1))), // spelling first
        (counts("051", "0", "0"), 50, Some((1, 1))),
        (counts("51", "x", "0"), 50, Some((15, 1))), // before the next field
        (counts("x", "51", "0"), 50, Some((1, 1))),
        (counts("51", "1001", "0"), 50, Some((15, 1))),
        (counts("1001", "51", "0"), 50, Some((2, 1))),
        (edited(&[(0, 1, "9"), (0, 7, "51")]), 50, Some((2, 1))),
        (edited(&[(0, 6, "k"), (0, 7, "51")]), 50, Some((1, 1))),
        (edited(&[(0, 9, "51"), (0, 10, "x")]), 50, Some((15, 1))),
        (edited(&[(0, 9, "51"), (1, 1, "9")]), 50, Some((15, 1))), // before the next line
        (edited(&[(0, 0, "s"), (0, 7, "51")]), 50, Some((1, 1))),
        (bad_f, 50, Some((15, 1))),
        (long(1024), 50, Some((15, 1))), // before the weight that is misspelt
        (long(1025), 50, Some((1, 1))),
        (edited(&[(0, 7, "51")])[..end + 1].into(), 50, Some((7, 1))),
        (whole[..end].into(), 50, Some((7, 1))),
        (whole.clone(), 50, None),
        (whole.clone(), 0, None), // only three zeros pass
        (counts("1", "0", "0"), 0, Some((15, 1))),
        (counts("0", "0", "1"), 0, Some((15, 1))),
        (counts("1", "1", "1"), 1, None),
        (counts("2", "0", "0"), 1, Some((15, 1))),
        (counts("50", "0", "0"), 49, Some((15, 1))),
        (counts("51", "0", "0"), 51, None),
        (counts("999", "999", "999"), 999, None),
        (counts("1000", "0", "0"), 999, Some((15, 1))),
        (counts("1000", "1000", "1000"), 1000, None),
        (counts("1001", "0", "0"), 1000, Some((2, 1))),
        (whole.clone(), 1001, Some((2, 0))), // the limit before the text
        (b"x".into(), 1001, Some((2, 0))),
        (vec![], 1001, Some((2, 0))),
        (counts("1001", "0", "0"), 1001, Some((2, 0))),
        (whole.clone(), 65_536 + 50, Some((2, 0))),
        (whole.clone(), 256 + 50 + 65_536 * 4, Some((2, 0))),
        (whole, u32::MAX, Some((2, 0))),
    ]
}

/// `count` limits of iterations, and a text for each whose counts lie about it: half of them within it, two in three damaged once or twice.
pub fn pages(seed: u64, count: u64, side: u32) -> Vec<(u32, Vec<u8>)> {
    let mut r = Random::new(seed);
    let mut page = || {
        let most = limit(&mut r);
        let mut sheet = legal(&mut r, side, 1000);
        sheet.counts = sheet.counts.map(|_| about(&mut r, most));
        if r.one_in(2) {
            sheet.counts = sheet.counts.map(|n| n.min(most));
        }
        let mut text = sheet.held_within().text();
        for _ in 0..r.below(3) {
            r.pick(&DAMAGES).1(&mut r, &mut text);
        }
        (most, text)
    };
    (0..count).map(|_| page()).collect()
}

/// Limits of iterations at which something changes.
pub const LIMITS: [u32; 8] = [0, 1, 49, 50, 51, 999, 1000, 1001];

fn limit(r: &mut Random) -> u32 {
    match r.below(8) {
        0..4 => r.pick(&LIMITS),
        4..7 => r.between(0, 1000) as u32,
        _ => r.pick(&[1002, 1024, 65_536 + 50, 16_777_216, u32::MAX]).max(r.bits() >> r.below(20)),
    }
}

/// A count at a limit or beside it, or at another place where something changes, or any.
fn about(r: &mut Random, limit: u32) -> u32 {
    match r.below(4) {
        0 | 1 => r.pick(&[limit.saturating_sub(1), limit, limit.saturating_add(1)]).min(999_999),
        2 => r.pick(&LIMITS),
        _ => r.between(0, 1000) as u32,
    }
}

/// Texts about as long as the longest that `smooth` accepts, and beyond, with their answers.
pub fn long() -> Vec<(Vec<u8>, Option<Refusal>)> {
    let levels = Levels { ranged: vec![true; 16], ..vec![-2047; 1024].into() };
    let channel = Channel { w: 32, h: 32, across: 1, down: 1, table: vec![255; 64], levels };
    let weights = [Weight::Bits(0x3f80_0000); 3];
    let sheet = Sheet {
        w: 32,
        h: 32,
        picture_w: 32,
        picture_h: 32,
        joint: false,
        counts: [0, 1, 2],
        smoothing: weights,
        data: weights,
        rounding: Some(Rounding::Nearest),
        reorder: Some(Reorder::Once),
        hold: Some([0, 1, 1]),
        channels: vec![channel; 3],
        marks: (0..48).map(|i| [i / 16, i / 4 % 4, i % 4]).collect(),
    };
    let whole = sheet.text();
    let no_end = &whole[..whole.len() - 2];
    let then = |start: &[u8], bytes: usize, end: &str| [start, &vec![b'a'; bytes], end.as_bytes()].concat();
    vec![
        (then(&whole, 1, ""), Some((7, 105))),
        (then(&whole, 30_000, "\n"), Some((7, 105))),
        (then(no_end, 0, ""), Some((7, 104))),
        (then(no_end, 1024, ""), Some((7, 104))),
        (then(no_end, 1025, ""), Some((1, 104))),
        (then(no_end, 1024, "\n"), Some((1, 104))),
        (then(no_end, 1025, "\n"), Some((1, 104))),
        (then(no_end, 30_000, "\n"), Some((1, 104))),
        (then(b"", 30_000, ""), Some((1, 1))),
        (vec![b'\n'; 30_000], Some((1, 1))),
        (whole, None),
    ]
}

/// The sheet for which `smooth` prints most: three runs of 1,000 steps, and the largest picture.
pub fn largest() -> Sheet {
    let mut r = Random::new(1);
    let mut channel = |_| Channel {
        w: 32,
        h: 32,
        across: 1,
        down: 1,
        table: vec![255; 64],
        levels: (0..1024).map(|_| r.between(-9, 9) as i32).collect(),
    };
    let weights = [Weight::Bits(0.3_f32.to_bits()); 3];
    Sheet {
        w: 32,
        h: 32,
        picture_w: 32,
        picture_h: 32,
        joint: false,
        counts: [1000; 3],
        smoothing: weights,
        data: [Weight::Bits(0.001_f32.to_bits()); 3],
        rounding: None,
        reorder: None,
        hold: None,
        marks: vec![],
        channels: [0; 3].map(&mut channel).into(),
    }
}

/// Sheets that tell readings of document 01 apart by whether a channel is blown.
pub fn fixed_runs() -> Vec<(&'static str, Sheet, bool)> {
    let one = read(&example(), SMOOTH).expect("legal");
    let sheet = |joint: bool, channels: usize, counts: [u32; 3], data: [u32; 3]| Sheet {
        joint,
        counts,
        data: data.map(Weight::Bits),
        channels: vec![one.channels[0].clone(); channels],
        ..one.clone()
    };
    const HUGE: u32 = 0x7f00_0000;
    /// The largest data weight with a finite alpha.
    const LARGEST: u32 = 0x7ab5_baae;
    // a channel whose gradient overflows in the third step of three, after planes that moved
    let mut levels = vec![0; 256];
    [(0, 1), (25, -1), (64, 1), (65, 1), (128, 50), (192, 50)].into_iter().for_each(|(k, level)| levels[k] = level);
    let late = Channel { w: 16, h: 16, across: 1, down: 1, table: vec![1; 64], levels: levels.into() };
    let with_late = |sheet: Sheet| {
        let mut channels = sheet.channels;
        *channels.last_mut().expect("a channel") = late.clone();
        Sheet { w: 32, h: 32, reorder: Some(Reorder::Once), channels, ..sheet }
    };
    let held = |sheet: Sheet, counts: [u32; 3]| Sheet { hold: Some(counts), ..sheet };
    let infinite = edited(&[(0, 7, "1"), (0, 10, "h7e000000"), (2, 2, "100"), (2, 10, "-77")]);
    vec![
        ("huge data weight", sheet(true, 1, [1, 0, 0], [HUGE, 0, 0]), true),
        ("huge data weight, no step", sheet(true, 1, [0, 0, 0], [HUGE, 0, 0]), false),
        ("separate: the first data weight for channel 1", sheet(false, 3, [0, 1, 0], [HUGE, 0, 0]), true),
        ("separate: the second data weight is spare", sheet(false, 3, [0, 1, 0], [0, HUGE, 0]), false),
        ("joint: the first iteration count for all", sheet(true, 3, [0, 1, 0], [HUGE, 0, 0]), false),
        ("joint: each channel's data weight", sheet(true, 3, [1, 0, 0], [0, 0, HUGE]), true),
        ("largest data weight with a finite alpha", sheet(true, 1, [1, 0, 0], [LARGEST, 0, 0]), false),
        ("smallest data weight with an infinite alpha", sheet(true, 1, [1, 0, 0], [0x7ab5_baaf, 0, 0]), true),
        ("squares of the gradient overflow", sheet(true, 1, [2, 0, 0], [0x7100_0000, 0, 0]), false),
        ("blown in the last step", with_late(sheet(true, 1, [3, 0, 0], [LARGEST, 0, 0])), true),
        ("separate: blown in the last run", with_late(sheet(false, 3, [1, 1, 3], [LARGEST, 0, 0])), true),
        ("separate: one step less", with_late(sheet(false, 3, [1, 1, 2], [LARGEST, 0, 0])), false),
        (
            "held before the step that blows",
            held(with_late(sheet(true, 1, [3, 0, 0], [LARGEST, 0, 0])), [2, 0, 0]),
            false,
        ),
        (
            "held after the last step, which blows",
            held(with_late(sheet(true, 1, [3, 0, 0], [LARGEST, 0, 0])), [3, 0, 0]),
            true,
        ),
        ("joint: one held at its start", held(sheet(true, 3, [2, 0, 0], [0, 0, HUGE]), [2, 2, 0]), false),
        ("joint: another held", held(sheet(true, 3, [2, 0, 0], [0, 0, HUGE]), [2, 0, 2]), true),
        ("separate: one held at its start", held(sheet(false, 3, [0, 1, 0], [HUGE, 0, 0]), [0, 0, 0]), false),
        ("all held", held(with_late(sheet(true, 3, [3, 0, 0], [LARGEST, LARGEST, LARGEST])), [1, 0, 2]), false),
        ("the second total is infinite", read(&infinite, SMOOTH).expect("legal"), false),
    ]
}

/// Writes texts, each after its length in five digits, and their answers.
pub fn pack<T>(folder: &Path, texts: &[(T, Vec<u8>)], answers: impl Iterator<Item = String>) {
    let texts = texts.iter().flat_map(|(_, text)| [format!("{:05}", text.len()).as_bytes(), text].concat());
    fs::create_dir_all(folder).expect("the folder");
    fs::write(folder.join("texts"), texts.collect::<Vec<u8>>()).expect("the texts");
    fs::write(folder.join("answers"), answers.collect::<String>()).expect("the answers");
}

#[cfg(test)]
mod tests {
    use super::*;
    use crate::sheet::{Limits, MOST, Reader};

    #[test]
    fn fixed_texts() {
        for (name, text, answer) in fixed() {
            assert_eq!(read(&text, SMOOTH).err(), answer, "{name}: {}", String::from_utf8_lossy(&text));
        }
        for (text, answer) in long() {
            assert_eq!(read(&text, SMOOTH).err(), answer, "{} bytes", text.len());
        }
    }

    #[test]
    fn fixed_pages() {
        for (text, iterations, answer) in paged() {
            let limits = Limits { iterations, ..SMOOTH };
            assert_eq!(read(&text, limits).err(), answer, "{iterations}: {}", String::from_utf8_lossy(&text));
        }
    }

    /// A limit of iterations refuses by 15 or changes nothing; so does a smaller one.
    #[test]
    fn a_larger_limit() {
        for (_, text) in pages(1, 3000, 32) {
            let at = |iterations| read(&text, Limits { iterations, ..SMOOTH });
            for (most, more) in [(0, 1), (1, 49), (49, 50), (50, 51), (51, 999), (999, 1000)] {
                assert!(at(most) == Err((15, 1)) || at(most) == at(more));
            }
        }
    }

    #[test]
    fn sides_up_to_512_in_the_library() {
        assert_eq!(read(&edited(&[(0, 1, "512")]), MOST).err(), None);
        assert_eq!(read(&edited(&[(0, 1, "520")]), MOST).err(), Some((2, 1)));
        assert_eq!(read(&edited(&[(0, 1, "40"), (0, 6, "k")]), MOST).err(), Some((1, 1)));
    }

    /// A partner sees neither hidden levels nor whether they are other ones; a block that isn't marked stays.
    #[test]
    fn hidden_levels() {
        let mut r = Random::new(4);
        for _ in 0..300 {
            let sheet = legal(&mut r, 32, 3);
            let other = hidden(&mut r, &sheet);
            let (read, others) = (read(&sheet.text(), SMOOTH), read(&other.text(), SMOOTH));
            assert_eq!((read.as_ref(), others.as_ref()), (Ok(&sheet), Ok(&other)));
            assert_eq!(sheet.seen_by(Reader::Partner), other.seen_by(Reader::Partner));
            assert_eq!(sheet.seen_by(Reader::Staff), sheet);
            assert!(!sheet.marks.is_empty() || sheet.seen_by(Reader::Partner) == sheet);
        }
        let marked = |levels: &[i32], ranged: bool| {
            let mut sheet = read(&example(), SMOOTH).expect("legal");
            sheet.channels[0].levels.lows[..levels.len()].copy_from_slice(levels);
            sheet.channels[0].levels.highs.fill(9);
            (sheet.marks, sheet.channels[0].levels.ranged) = (vec![[0, 0, 0]], vec![ranged]);
            let seen = sheet.seen_by(Reader::Partner).channels.remove(0).levels;
            (seen.lows[..4].to_vec(), seen.highs[..4].to_vec())
        };
        assert_eq!(marked(&[5, 6, 7], true), (vec![5, 0, 0, 0], vec![9, 0, 0, 0]));
    }

    #[test]
    fn written_sheets_are_read_back() {
        let mut r = Random::new(1);
        for limits in [SMOOTH, MOST] {
            for _ in 0..300 {
                let sheet = legal(&mut r, limits.side, 1000);
                assert_eq!(read(&sheet.text(), limits), Ok(sheet));
            }
        }
    }
}
