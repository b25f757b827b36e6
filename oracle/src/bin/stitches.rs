//! The proved stitching of two sheet texts (M-107) beside the oracle's own: number, text and line of a refusal, length, and every byte of the output.
//!
//!     stitches [N [SEED]]         N pairs at random (20,000), and fixed ones
//!     stitches --faults           plants faults, one kind after another, and fails unless each is reported
//!     stitches --list N SEED [BYTES]  the fixed pairs and N at random whose texts are short (1,000 bytes; the program has room for 4,096), for replay, lines `stitch NUMBER TEXT LINE LENGTH LEFT RIGHT OUTPUT`:
//!                                 the refusal, the measured length (0 where measuring refuses), both texts, and the output, 7 before, afterwards; numbers in hexadecimal,
//!                                 texts as bytes of two digits
//!     stitches --bench [ROUNDS]   times the stitching of two texts, at two sizes
//!     stitches --samples DIR      writes two sheets that a tone runs through, DIR/left.tsv and DIR/right.tsv, and DIR/stitched.tsv
//!
//! Each pair is measured, then stitched into outputs of the measured length and of other lengths, which are filled with 7s before: a refusal must leave them so. What is
//! stitched is read by both proved readers, and each block must be the one that reading the left or the right text gives at its place. Small ones are solved
//! and drawn beside the published Rust.
use oracle::{
    bench::{best_median, cpu_of},
    floats::{bits64, same},
    pairs::{self, Pair},
    picture::{drawn, ended},
    probe,
    random::Random,
    sheet::{Channel, Levels, MOST, Reorder, Sheet, Weight, read},
    stitch::{Refused, measure, stitch, stitched},
    tally::Tally,
};
use std::{collections::BTreeMap, f64::consts::PI, fs, hint::black_box, path::Path, process::ExitCode};

fn main() -> ExitCode {
    let args: Vec<String> = std::env::args().skip(1).collect();
    let number = |i: usize, default: u64| args.get(i).map_or(default, |a| a.parse().expect("a whole number"));
    match args.first().map(String::as_str) {
        Some("--faults") => return faults(),
        Some("--list") => list(number(1, 100), number(2, 1), number(3, 1000) as usize),
        Some("--bench") => bench(number(1, 5) as usize),
        Some("--samples") => samples(Path::new(args.get(1).expect("a folder"))),
        _ => {
            println!("seed {}", number(1, 1));
            let (tally, answers) = compare(number(0, 20_000), number(1, 1), &mut Faults::default());
            println!("answers and texts of measuring, and how often: {answers:?}");
            return tally.close();
        }
    }
    ExitCode::SUCCESS
}

/// What measuring or stitching gives: the refusal, or the length or the output.
type Given<T> = Result<T, Refused>;

fn refused<T>(number: u32, which: u32, line: usize, given: T) -> Given<T> {
    if number == 0 {
        assert_eq!((which, line), (0, 0), "nothing is at fault");
        return Ok(given);
    }
    Err((number, which, line))
}

/// The proved measuring; a refusal must leave the length as it was.
fn measured([left, right]: &[Vec<u8>; 2]) -> Given<usize> {
    let (mut length, mut which, mut line) = (7, 7, 7);
    let number = probe::stitch_measure(left, right, &mut length, &mut which, &mut line);
    assert!(number == 0 || length == 7, "a refusal leaves the length");
    refused(number, which, line, length)
}

/// The proved stitching into an output of this length. What a refusal wrote shows.
fn proved([left, right]: &[Vec<u8>; 2], length: usize) -> (Given<()>, Vec<u8>) {
    let (mut which, mut line, mut out) = (7, 7, vec![7; length]);
    let number = probe::stitch(left, right, &mut out, &mut which, &mut line);
    (refused(number, which, line, ()), out)
}

/// Wrong answers of the proved side, planted to see that they are reported: which kind, and how many.
#[derive(Default)]
struct Faults {
    kind: &'static str,
    planted: u64,
}

const FAULTS: [&str; 18] = [
    "another number",
    "the other text",
    "another line",
    "the right judged first",
    "16 left out",
    "2 before 16",
    "2 left out",
    "a length more by one",
    "a refusal measured",
    "another length taken",
    "8 before the others",
    "the output touched by a refusal",
    "a byte of the output",
    "the right's blocks first",
    "columns of marks not moved",
    "the right's header",
    "a block of another place",
    "the lowest bit of a plane",
];

impl Faults {
    fn is(&self, kind: &str) -> bool {
        self.kind == kind
    }

    /// `wrong` in place of what was given; counted where it differs.
    fn plant<T: PartialEq>(&mut self, given: T, wrong: Option<T>) -> T {
        let wrong = wrong.filter(|wrong| *wrong != given);
        self.planted += u64::from(wrong.is_some());
        wrong.unwrap_or(given)
    }

    fn measured(&mut self, [left, right]: &[Vec<u8>; 2], given: Given<usize>) -> Given<usize> {
        let wrong = match (self.kind, given) {
            ("another number", Err((number, which, line))) => Err((number % 20 + 1, which, line)),
            ("the other text", Err((number, which, line))) => Err((number, (which + 1) % 3, line)),
            ("another line", Err((number, which, line))) => Err((number, which, line + 1)),
            ("the right judged first", Err((_, 1, _))) => match read(right, MOST) {
                Err((number, line)) => Err((number, 2, line)),
                Ok(_) => return given,
            },
            ("16 left out", Err((16, ..))) => Ok(left.len() + right.len()),
            ("2 before 16", Err((16, ..))) => match [left, right].map(|text| read(text, MOST).expect("legal").w) {
                [a, b] if a + b > 512 => Err((2, 0, 0)),
                _ => return given,
            },
            ("2 left out", Err((2, 0, 0))) => Ok(left.len() + right.len()),
            ("a length more by one", Ok(length)) => Ok(length + 1),
            ("a refusal measured", Err(_)) => Ok(0),
            _ => return given,
        };
        self.plant(given, Some(wrong))
    }

    fn stitched(
        &mut self,
        texts: &[Vec<u8>; 2],
        due: &Given<Vec<u8>>,
        given: (Given<()>, Vec<u8>),
    ) -> (Given<()>, Vec<u8>) {
        let (answer, mut out) = given.clone();
        let swapped = |texts: &[Vec<u8>; 2]| stitched(&texts[1], &texts[0]).ok();
        let wrong = match (self.kind, answer) {
            ("another length taken", Err((8, ..))) => Some((Ok(()), out)),
            ("8 before the others", Err((number, ..))) if number != 8 => Some((Err((8, 0, 0)), out)),
            ("the output touched by a refusal", Err(_)) if !out.is_empty() => {
                out[0] = b'S';
                Some((answer, out))
            }
            ("a byte of the output", Ok(())) => {
                let at = out.len() - 3;
                out[at] ^= 1;
                Some((answer, out))
            }
            ("the right's blocks first", Ok(())) => swapped(texts)
                .filter(|other| Some(other.len()) == due.as_ref().ok().map(Vec::len))
                .map(|out| (answer, out)),
            ("columns of marks not moved", Ok(())) => {
                let [one, _] = [0, 1].map(|i| read(&texts[i], MOST).expect("legal"));
                let mut sheet = read(&out, MOST).expect("legal");
                let mine = one.marks.len();
                sheet.marks[mine..].iter_mut().for_each(|mark| mark[2] -= one.channels[mark[0] as usize].w / 8);
                Some((answer, sheet.text()))
            }
            ("the right's header", Ok(())) => {
                let other = read(&texts[1], MOST).expect("legal");
                let sheet = read(&out, MOST).expect("legal");
                Some((
                    answer,
                    Sheet { smoothing: other.smoothing, data: other.data, rounding: other.rounding, ..sheet }.text(),
                ))
            }
            _ => None,
        };
        self.plant(given, wrong)
    }
}

/// Each kind has to be reported as often as it was planted, at least once.
fn faults() -> ExitCode {
    let missed: Vec<_> = FAULTS
        .into_iter()
        .filter(|kind| {
            let mut faults = Faults { kind, planted: 0 };
            let reported = compare(600, 1, &mut faults).0.differ();
            println!("{kind}: planted {}, reported {reported}", faults.planted);
            faults.planted == 0 || faults.planted != reported
        })
        .collect();
    println!("{} kinds of fault planted, {} missed: {missed:?}", FAULTS.len(), missed.len());
    u8::from(!missed.is_empty()).into()
}

type Met = BTreeMap<(u32, u32), u64>;

fn compare(count: u64, seed: u64, faults: &mut Faults) -> (Tally, Met) {
    let (mut r, mut tally, mut met) = (Random::new(seed), Tally::default(), Met::new());
    for (name, texts, due) in pairs::fixed() {
        let answer = measured(&texts).err();
        tally.count_in("fixed pairs, answers as written down", answer == due, || format!("{name}: {answer:?}"));
        one(&mut tally, &mut r, &mut met, "fixed pairs", &texts, faults);
    }
    for i in 0..count {
        let (kind, texts) = pairs::any(&mut r, i, 3);
        one(&mut tally, &mut r, &mut met, &kind, &texts, faults);
    }
    (tally, met)
}

fn one(tally: &mut Tally, r: &mut Random, met: &mut Met, kind: &str, texts: &[Vec<u8>; 2], faults: &mut Faults) {
    let due = stitched(&texts[0], &texts[1]);
    let shown = |answer: &dyn std::fmt::Debug| {
        let [left, right] = [&texts[0], &texts[1]].map(|text| String::from_utf8_lossy(text).into_owned());
        format!("{answer:?}\n{left}and\n{right}")
    };
    *met.entry(due.as_ref().err().map_or((0, 0), |(number, which, _)| (*number, *which))).or_default() += 1;
    let answer = faults.measured(texts, measured(texts));
    tally.count_in(kind, answer == due.as_ref().map(Vec::len).map_err(|refused| *refused), || shown(&answer));
    let length = due.as_ref().map_or_else(|_| r.pick(&[0, 1, 400]), Vec::len);
    let (answer, out) = faults.stitched(texts, &due, proved(texts, length));
    let right = match &due {
        Ok(text) => answer == Ok(()) && out == *text,
        Err(refused) => answer == Err(*refused) && out.iter().all(|b| *b == 7),
    };
    tally.count_in(kind, right, || shown(&answer));
    if let Ok(text) = due {
        for other in [0, length - 1, length + 1, length + 1000, texts[0].len()] {
            let (answer, out) = faults.stitched(texts, &Ok(text.clone()), proved(texts, other));
            let right = answer == Err((8, 0, 0)) && out.iter().all(|b| *b == 7);
            tally.count_in("outputs of other lengths", right, || shown(&answer));
        }
        places(tally, texts, &text, faults);
        smoothed(tally, &text, faults);
    }
}

/// By the proved reader: the record's numbers, and lows, highs and tables channel by channel.
struct Lent {
    numbers: Vec<u32>,
    levels: [Vec<i16>; 2],
    tables: Vec<u16>,
}

impl Lent {
    fn read(text: &[u8], reader: u32) -> Self {
        let (mut n, mut m, mut line) = (0, 0, 0);
        let measured = probe::measure(text, MOST, &mut n, &mut m, &mut line);
        let ([mut lows, mut highs], mut tables, mut numbers) =
            ([0; 2].map(|_| vec![0; n]), vec![0; m], vec![0; probe::NUMBERS]);
        let read = probe::read(text, MOST, reader, &mut lows, &mut highs, &mut tables, &mut numbers, &mut line);
        assert_eq!((measured, read), (0, 0), "a legal text");
        Self { numbers, levels: [lows, highs], tables }
    }

    /// Blocks in a row, and rows of blocks, of a channel.
    fn blocks(&self, c: usize) -> [usize; 2] {
        [15, 16].map(|i| self.numbers[i + 4 * c] as usize / 8)
    }

    /// A block's lows and highs.
    fn block(&self, c: usize, row: usize, column: usize) -> [&[i16]; 2] {
        let before: usize = (0..c).map(|c| self.blocks(c).iter().product::<usize>()).sum();
        let at = 64 * (before + row * self.blocks(c)[0] + column);
        [0, 1].map(|i| &self.levels[i][at..at + 64])
    }
}

/// "Reading the output gives exactly the two sheets' blocks at their places", all by the proved reader, for the staff and for a partner; and the left's record with the widths summed.
fn places(tally: &mut Tally, texts: &[Vec<u8>; 2], text: &[u8], faults: &mut Faults) {
    for reader in [0, 1] {
        let ([left, right], mut all) = ([0, 1].map(|i| Lent::read(&texts[i], reader)), Lent::read(text, reader));
        if faults.is("a block of another place") {
            let before = all.levels.clone();
            all.levels.iter_mut().for_each(|levels| levels.rotate_left(64));
            faults.planted += u64::from(before != all.levels);
        }
        let mut numbers = left.numbers.clone();
        let sums = [0, 2].into_iter().chain((0..left.numbers[4] as usize).map(|c| 15 + 4 * c));
        sums.for_each(|i| numbers[i] += right.numbers[i]);
        // counts of H of channels that there are not are the left's
        let mut equal = all.numbers == numbers && all.tables == left.tables && all.tables == right.tables;
        for c in 0..left.numbers[4] as usize {
            let [mine, rows] = left.blocks(c);
            for row in 0..rows {
                for column in 0..all.blocks(c)[0] {
                    let due =
                        if column < mine { left.block(c, row, column) } else { right.block(c, row, column - mine) };
                    equal &= all.block(c, row, column) == due;
                }
            }
        }
        let kind = ["blocks at their places, staff", "blocks at their places, partner"][reader as usize];
        tally.count_in(kind, equal, || String::from_utf8_lossy(text).into_owned());
    }
}

/// Solves and draws the output by the proved calls, and holds planes, totals, clipped numbers and picture against the published Rust's.
fn smoothed(tally: &mut Tally, text: &[u8], faults: &mut Faults) {
    let sheet = read(text, MOST).expect("legal");
    if sheet.w * sheet.h > 4096 {
        return;
    }
    let lent = Lent::read(text, 0);
    let (n, [lows, highs]) = (&lent.numbers, &lent.levels);
    let all = (n[4] * n[0] * n[1]) as usize;
    let steps: u32 = if n[5] == 1 { n[6] } else { n[6..][..n[4] as usize].iter().sum() };
    let mut six = [0; 6].map(|_| vec![0.5; all]);
    let (mut clipped, mut totals) = (vec![77; n[4] as usize], vec![7.0; 2 * steps as usize]);
    let answer = probe::solve(n, [lows, highs], &lent.tables, &mut six, &mut clipped, &mut totals);
    let [plane, ..] = &mut six;
    if faults.is("the lowest bit of a plane") && answer == 0 {
        plane[all - 1] = f32::from_bits(plane[all - 1].to_bits() ^ 1);
        faults.planted += 1;
    }
    let equal = match ended(&sheet) {
        None => answer == 255,
        Some(due) => {
            let planes = plane.iter().zip(due.planes.iter().flatten()).all(|(a, b)| same(*a, *b));
            let own: Vec<u64> = due.totals.iter().flat_map(|t| t.totals).map(bits64).collect();
            let told = clipped == due.clipped && totals.iter().copied().map(bits64).eq(own);
            let mut rgb = vec![7; (3 * n[2] * n[3]) as usize];
            let finished = probe::finish(n[27], [n[0], n[1], n[2], n[3], n[4]], plane, &mut rgb);
            let drawn = drawn(&sheet, due.planes).bytes;
            answer == 0 && planes && told && finished == 0 && rgb == drawn
        }
    };
    tally.count_in("outputs smoothed", equal, || format!("{answer}: {}", String::from_utf8_lossy(text)));
}

fn list(count: u64, seed: u64, most: usize) {
    let mut r = Random::new(seed);
    let fixed = pairs::fixed().into_iter().map(|(_, texts, _)| texts);
    let short = |most: usize| move |texts: &[Vec<u8>; 2]| texts.iter().all(|text| text.len() < most);
    let random: Vec<_> =
        (0..).map(|i| pairs::any(&mut r, i, 1000).1).filter(short(most)).take(count as usize).collect();
    for ([left, right], i) in fixed.filter(short(4000)).chain(random).zip(0..) {
        let due = measure(&left, &right);
        line(&left, &right, due.unwrap_or(3));
        if let (Ok(length), 0) = (due, i % 4) {
            line(&left, &right, r.pick(&[0, 1, length - 1, length + 1]));
        }
    }
}

/// Into an output of this length.
fn line(left: &[u8], right: &[u8], length: usize) {
    let mut out = vec![7; length];
    let (number, which, line) = stitch(left, right, &mut out).err().unwrap_or_default();
    let length = measure(left, right).unwrap_or(0);
    let [left, right, out] =
        [left, right, &out].map(|text| text.iter().map(|byte| format!("{byte:02x}")).collect::<String>());
    println!("stitch {number:x} {which:x} {line:x} {length:x} {left} {right} {out}");
}

/// Three channels of whole sides, each block a line `G` with levels of four digits and a sign, and marked.
fn large(r: &mut Random, w: u32, h: u32) -> Sheet {
    let channel = |_| {
        let lows: Vec<i32> = (0..w * h).map(|_| -(r.between(1500, 2047) as i32)).collect();
        let highs = lows.iter().map(|low| low + 400).collect();
        let levels = Levels { lows, highs, ranged: vec![true; (w * h / 64) as usize] };
        Channel { w, h, across: 1, down: 1, table: vec![16; 64], levels }
    };
    let channels = (0..3).map(channel).collect();
    let [mut sheet, _] = pairs::fitting(&mut Random::new(1), 3);
    (sheet.w, sheet.picture_w, sheet.h, sheet.picture_h) = (w, w, h, h);
    let places = |c| (0..h / 8).flat_map(move |row| (0..w / 8).map(move |column| [c, row, column]));
    let marks = (0..3).flat_map(places).collect();
    Sheet { channels, hold: None, marks, ..sheet }
}

/// The least of the thread's processor times, which other work on the machine leaves alone.
fn bench(rounds: usize) {
    let mut r = Random::new(1);
    for w in [64, 128, 256] {
        let sheets = [0; 2].map(|_| large(&mut r, w, 512));
        let [left, right] = pairs::texts(&sheets);
        let out = stitched(&left, &right).expect("they fit");
        let (one, other) = (left.len(), right.len());
        println!(
            "{w} and {w} wide, 512 high, three channels, lines G, all marked: {one} and {other} bytes make {}",
            out.len()
        );
        let say = |what: &str, work: &mut dyn FnMut()| {
            let time = best_median((0..rounds).map(|_| cpu_of(&mut *work)).collect()).0;
            println!(
                "  {what}: {:.1} ms, {:.2} ns a byte of the two texts",
                time * 1e3,
                time * 1e9 / (one + other) as f64
            );
        };
        say("the oracle's own", &mut || drop(black_box(stitched(&left, &right))));
        if cfg!(smoother) {
            let (mut lent, mut length, mut which, mut line) = (vec![7; out.len()], 7, 7, 7);
            say("proved, measured", &mut || {
                assert_eq!(probe::stitch_measure(&left, &right, &mut length, &mut which, &mut line), 0);
            });
            say("proved, stitched", &mut || {
                assert_eq!(probe::stitch(&left, &right, &mut lent, &mut which, &mut line), 0);
            });
            assert!(length == out.len() && lent == out, "the outputs differ");
        }
    }
}

/// A tone that rises from the left sheet into the right one, over a quiet ground.
fn samples(folder: &Path) {
    const TABLE: u32 = 12;
    let shade =
        |x: f64, y: f64| 90.0 * (-((y - 13.0 + x * 0.3).powi(2)) / 3.0).exp() - 60.0 + 4.0 * (x * 1.7 + y * 2.3).sin();
    let wave = |k: u32, x: u32| {
        let size = if k == 0 { (1.0_f64 / 8.0).sqrt() } else { 0.5 };
        size * (f64::from((2 * x + 1) * k) * PI / 16.0).cos()
    };
    let sheet = |from: u32| -> Sheet {
        let level = |row: u32, column: u32, i: u32| {
            let (v, u) = (i / 8, i % 8);
            let places = (0..64).map(|j| (j / 8, j % 8));
            let sum: f64 = places
                .map(|(y, x)| shade(f64::from(from + 8 * column + x), f64::from(8 * row + y)) * wave(v, y) * wave(u, x))
                .sum();
            (sum / f64::from(TABLE)).round() as i32
        };
        let blocks = (0..2).flat_map(|row| (0..2).map(move |column| (row, column)));
        let levels = blocks.flat_map(|(row, column)| (0..64).map(move |i| level(row, column, i))).collect();
        let channel = Channel { w: 16, h: 16, across: 1, down: 1, table: vec![TABLE; 64], levels };
        Sheet {
            w: 16,
            h: 16,
            picture_w: 16,
            picture_h: 16,
            joint: true,
            counts: [20; 3],
            smoothing: [Weight::Bits(0.3_f32.to_bits()); 3],
            data: [Weight::Bits(0.001_f32.to_bits()); 3],
            rounding: None,
            reorder: Some(Reorder::Once),
            hold: None,
            channels: vec![channel],
            marks: vec![[0, 0, 1]],
        }
    };
    let pair: Pair = [sheet(0), Sheet { picture_w: 15, ..sheet(16) }];
    let [left, right] = pairs::texts(&pair);
    let all =
        [("left", left.clone()), ("right", right.clone()), ("stitched", stitched(&left, &right).expect("they fit"))];
    fs::create_dir_all(folder).expect("the folder");
    all.iter().for_each(|(name, text)| fs::write(folder.join(format!("{name}.tsv")), text).expect("a text"));
}
