//! Sheet texts and what the oracle's own reader gives for them.
//!
//!     sheets --make N SEED DIR [LIMIT]    DIR/00001.tsv .. and DIR/answers, a line per text
//!     sheets --pack N SEED DIR [LIMIT]    DIR/texts, each text after its length in five digits, and DIR/answers
//!     sheets --compare [N [SEED]]         the proved reader beside the oracle's, on N texts at each of the limits 32 and 512
//!     sheets --faults                     plants wrong answers, one kind after another, and fails unless each is reported
//!     sheets --list N SEED                lines for replay: the fixed texts and N at random that are not long
//!     sheets --bench [ROUNDS]             the thread's processor time of both readers on a sheet of 512 by 512 with three channels, best and median
use oracle::{
    bench::{best_median, cpu_of},
    probe,
    random::Random,
    sheet::{
        Channel, Limits, MOST, Reader, Refusal, Reorder, Rounding, SMOOTH, Sheet, Weight, joined, lent_levels, read,
    },
    tally::Tally,
    texts,
};
use std::{collections::BTreeMap, fs, path::Path, process::ExitCode};

fn main() -> ExitCode {
    let args: Vec<String> = std::env::args().skip(1).collect();
    let number = |i: usize, default: u64| args.get(i).map_or(default, |a| a.parse().expect("a whole number"));
    match args.first().map(String::as_str) {
        Some(form @ ("--make" | "--pack")) => {
            let folder = args.get(3).expect("a folder");
            make(form == "--pack", number(1, 0), number(2, 1), Path::new(folder), number(4, 32) as u32);
        }
        Some("--list") => list(number(1, 100), number(2, 1)),
        Some("--compare") => {
            println!("seed {}", number(2, 1));
            return compare(number(1, 100_000), number(2, 1), &mut Faults::default()).close();
        }
        Some("--faults") => return faults(),
        Some("--bench") => bench(number(1, 20) as usize),
        _ => eprintln!(
            "sheets --make N SEED DIR [LIMIT] | --pack N SEED DIR [LIMIT] | --list N SEED | --compare [N [SEED]] | --faults | --bench [ROUNDS]"
        ),
    }
    ExitCode::SUCCESS
}

const READERS: [Reader; 2] = [Reader::Staff, Reader::Partner];
const STAFF: u32 = 0;
const PARTNER: u32 = 1;

/// What a reader gives: the refusal, or lows and highs, tables and the record's numbers.
#[derive(Debug, PartialEq)]
enum Given {
    Refused(u32, usize),
    Sheet((Vec<i16>, Vec<i16>), Vec<u16>, Vec<u32>),
}

/// By the reader's number: one that is neither 0 nor 1 is 2 at line 0, as a limit that is none.
fn expected(text: &[u8], limits: Limits, reader: u32) -> Given {
    let Some(reader) = READERS.into_iter().find(|known| *known as u32 == reader) else {
        return Given::Refused(2, 0);
    };
    let sheet = match read(text, limits) {
        Err((number, line)) => return Given::Refused(number, line),
        Ok(sheet) => sheet.seen_by(reader),
    };
    let c = &sheet.channels;
    let sides = [sheet.w, sheet.h, sheet.picture_w, sheet.picture_h, c.len() as u32, u32::from(sheet.joint)];
    let weights = sheet.weights().map(|weight| weight.value().to_bits());
    let owns = c.iter().flat_map(|c| [c.w, c.h, c.across, c.down]).chain([0; 8]).take(12);
    let letters = [u32::from(sheet.rounds() == Rounding::Nearest), u32::from(sheet.reorders() == Reorder::Once)];
    let settings = letters.into_iter().chain(sheet.holds());
    Given::Sheet(
        lent_levels(c),
        c.iter().flat_map(|c| &c.table).map(|quantiser| *quantiser as u16).collect(),
        sides.into_iter().chain(sheet.counts).chain(weights).chain(owns).chain(settings).collect(),
    )
}

/// The proved reader: measuring, then reading into buffers of `spare` more values than it asks for. Buffers start as 7s, and a
/// refusal must leave them so.
fn proved(text: &[u8], limits: Limits, reader: u32, spare: (usize, usize, usize, usize)) -> Given {
    let (mut n, mut m, mut line) = (7, 7, 7);
    let measured = probe::measure(text, limits, &mut n, &mut m, &mut line);
    let measured_line = line;
    if measured != 0 {
        assert_eq!((n, m), (7, 7), "a refusal leaves both lengths");
    }
    let [mut lows, mut highs] = [spare.0, spare.1].map(|more| vec![7i16; n + more]);
    let mut tables = vec![7u16; m + spare.2];
    let mut header = vec![7u32; probe::NUMBERS + spare.3];
    let number = probe::read(text, limits, reader, &mut lows, &mut highs, &mut tables, &mut header, &mut line);
    if number == 0 {
        assert_eq!((measured, line), (0, 0), "measuring accepts what reading accepts");
        return Given::Sheet((lows, highs), tables, header);
    }
    if measured != 0 && reader <= PARTNER {
        assert_eq!((measured, measured_line), (number, line), "measuring refuses as reading does");
    }
    let untouched =
        lows.iter().chain(&highs).all(|x| *x == 7) && tables.iter().all(|x| *x == 7) && header.iter().all(|x| *x == 7);
    assert!(untouched, "a refusal leaves the buffers");
    Given::Refused(number, line)
}

/// `read`, the limits of sides and of iterations, the reader's number, the refusal's number and line, a digest of what was read, all in hexadecimal, and the
/// text's bytes.
fn list(count: u64, seed: u64) {
    let texts = texts::all(seed, 8 * count, 32, 1000);
    let fixed = texts.iter().filter(|(kind, _)| kind.starts_with("fixed"));
    let random = texts.iter().filter(|(kind, _)| !kind.starts_with("fixed"));
    let random = random.filter(|(_, text)| text.len() < 1000).step_by(3).take(count as usize);
    let wide = fixed.filter(|(_, text)| text.len() < 4000).chain(random).map(|(_, text)| (1000, text.clone()));
    let paged = texts::paged().into_iter().map(|(text, iterations, _)| (iterations, text));
    let pages =
        texts::pages(seed, 8 * count, 32).into_iter().filter(|(_, text)| text.len() < 1000).take(count as usize);
    for (iterations, text) in wide.chain(paged).chain(pages) {
        line(&text, iterations, STAFF);
        if has_marks(&text) {
            line(&text, iterations, PARTNER);
        }
    }
    pairs(count as usize, seed);
    [texts::example(), b"x".into()]
        .iter()
        .for_each(|text| [2, 257, u32::MAX].iter().for_each(|who| line(text, 1000, *who)));
}

/// Whether a line begins as lines `N` do.
fn has_marks(text: &[u8]) -> bool {
    text.windows(2).any(|two| two == b"\nN")
}

/// Pairs of texts that differ in hidden levels alone, each by both readers.
fn pairs(count: usize, seed: u64) {
    let mut r = Random::new(seed ^ 0x4e);
    let sheets = std::iter::repeat_with(move || {
        let sheet = texts::legal(&mut r, 16, 1000);
        let other = texts::hidden(&mut r, &sheet);
        [sheet, other]
    });
    let unlike = |pair: &[Sheet; 2]| pair[0] != pair[1] && pair.iter().all(|sheet| sheet.text().len() < 2000);
    for sheet in sheets.filter(unlike).take(count / 12).flatten() {
        [STAFF, PARTNER].iter().for_each(|who| line(&sheet.text(), 1000, *who));
    }
}

fn line(text: &[u8], iterations: u32, reader: u32) {
    let (number, line, digest) = match expected(text, Limits { iterations, ..SMOOTH }, reader) {
        Given::Refused(number, line) => (number, line, 0),
        Given::Sheet(levels, tables, header) => (0, 0, digest(&levels, &tables, &header)),
    };
    let bytes: String = text.iter().map(|byte| format!("{byte:02x}")).collect();
    println!("read 20 {iterations:x} {reader:x} {number:x} {line:x} {digest:x} {bytes}");
}

/// Of the record's numbers, the bits of the lows and of the highs as f32, and the tables: each is added to 31 times what was there, modulo 2^32.
fn digest((lows, highs): &(Vec<i16>, Vec<i16>), tables: &[u16], header: &[u32]) -> u64 {
    let levels = lows.iter().chain(highs).map(|level| u64::from(f32::from(*level).to_bits()));
    let tables = tables.iter().map(|quantiser| u64::from(*quantiser));
    let all = header.iter().map(|number| u64::from(*number)).chain(levels).chain(tables);
    all.fold(0, |digest, number| (digest * 31 + number) % (1 << 32))
}

/// Wrong answers of the proved side, planted to see that they are reported: which kind, and how many.
#[derive(Default)]
struct Faults {
    kind: &'static str,
    planted: u64,
}

const FAULTS: [&str; 23] = [
    "another refusal",
    "another line",
    "the last low",
    "the last high",
    "low and high exchanged",
    "14 as 5",
    "the last quantiser",
    "the lowest bit of a weight",
    "the other letter of A",
    "the last held count",
    "17 as 2",
    "17 left out",
    "18 as 12",
    "18 left out",
    "the staff's levels for a partner",
    "a hidden level let through",
    "a reader that is none taken",
    "a sheet refused",
    "another length taken",
    "15 left out",
    "15 as 2",
    "2 as 15",
    "a limit above 1,000 taken",
];

impl Faults {
    fn plant(&mut self, mut given: Given) -> Given {
        let planted = match (&mut given, self.kind) {
            (Given::Refused(number, _), "another refusal") => {
                *number = *number % 7 + 1;
                true
            }
            (Given::Refused(_, line), "another line") => {
                *line += 1;
                true
            }
            (Given::Sheet((lows, _), ..), "the last low") => lows.last_mut().is_some_and(|d| {
                *d ^= 1;
                true
            }),
            (Given::Sheet((_, highs), ..), "the last high") => highs.last_mut().is_some_and(|d| {
                *d ^= 1;
                true
            }),
            (Given::Sheet((lows, highs), ..), "low and high exchanged") => {
                let unequal = lows != highs;
                std::mem::swap(lows, highs);
                unequal
            }
            (Given::Refused(number @ 14, _), "14 as 5") => {
                *number = 5;
                true
            }
            (Given::Sheet(_, tables, _), "the last quantiser") => tables.last_mut().is_some_and(|q| {
                *q ^= 1;
                true
            }),
            (Given::Sheet(_, _, header), "the lowest bit of a weight") => {
                header[14] ^= 1;
                true
            }
            (Given::Sheet(_, _, header), "the other letter of A") => {
                header[28] ^= 1;
                true
            }
            (Given::Sheet(_, _, header), "the last held count") => {
                header[31] ^= 1;
                true
            }
            (Given::Refused(number @ 17, _), "17 as 2") => {
                *number = 2;
                true
            }
            (Given::Refused(number @ 18, _), "18 as 12") => {
                *number = 12;
                true
            }
            (Given::Refused(18, _), "18 left out") => {
                given = Given::Sheet((vec![], vec![]), vec![], vec![]);
                true
            }
            (Given::Refused(17, _), "17 left out") => {
                given = Given::Sheet((vec![], vec![]), vec![], vec![]);
                true
            }
            (Given::Sheet(..), "a sheet refused") => {
                given = Given::Refused(7, 1);
                true
            }
            (Given::Refused(8, 0), "another length taken") => {
                given = Given::Sheet((vec![], vec![]), vec![], vec![]);
                true
            }
            _ => false,
        };
        self.planted += u64::from(planted);
        given
    }

    /// An answer at a limit of iterations; `wide` is the one at 1,000.
    fn plant_page(&mut self, given: Given, wide: impl FnOnce() -> Given) -> Given {
        let wrong = match (&given, self.kind) {
            (Given::Refused(15, _), "15 left out") => wide(),
            (Given::Refused(15, line), "15 as 2") => Given::Refused(2, *line),
            (Given::Refused(2, 1), "2 as 15") => Given::Refused(15, 1),
            (Given::Refused(2, 0), "a limit above 1,000 taken") => wide(),
            _ => return self.plant(given),
        };
        self.planted += 1;
        wrong
    }
}

/// Each kind has to be reported as often as it was planted, at least once.
fn faults() -> ExitCode {
    let missed: Vec<_> = FAULTS
        .into_iter()
        .filter(|kind| {
            let mut faults = Faults { kind, planted: 0 };
            let reported = compare(300, 1, &mut faults).differ();
            println!("{kind}: planted {}, reported {reported}", faults.planted);
            faults.planted == 0 || faults.planted != reported
        })
        .collect();
    println!("{} kinds of fault planted, {} missed: {missed:?}", FAULTS.len(), missed.len());
    u8::from(!missed.is_empty()).into()
}

fn compare(count: u64, seed: u64, faults: &mut Faults) -> Tally {
    let (mut tally, mut marked) = (Tally::default(), [0; 2]);
    for limits in [SMOOTH, MOST] {
        for (kind, text) in texts::all(seed, count, limits.side, 1000) {
            let kind = format!("{kind}, limit {}", limits.side);
            let rust = expected(&text, limits, STAFF);
            let legal = matches!(rust, Given::Sheet(..));
            marked[usize::from(legal)] += u64::from(has_marks(&text));
            let answer = faults.plant(proved(&text, limits, STAFF, (0, 0, 0, 0)));
            tally.count_in(&kind, rust == answer, || String::from_utf8_lossy(&text).into_owned());
            partner(&text, limits, faults, &mut tally);
            for spare in [(1, 0, 0, 0), (0, 1, 0, 0), (0, 0, 1, 0), (0, 0, 0, 1)].into_iter().filter(|_| legal) {
                let answer = faults.plant(proved(&text, limits, STAFF, spare));
                let right = answer == Given::Refused(8, 0);
                tally.count_in(&kind, right, || format!("a buffer too long: {spare:?}"));
            }
        }
    }
    if faults.kind.is_empty() {
        println!("texts with lines N, each by both readers: {} legal, {} refused", marked[1], marked[0]);
    }
    tally.kind("limits that are no side");
    for side in [0, 1, 4, 7, 9, 31, 33, 513, 520, 1024, u32::MAX] {
        let answer = faults.plant(proved(&texts::example(), Limits { side, ..MOST }, STAFF, (0, 0, 0, 0)));
        tally.count(answer == Given::Refused(2, 0), || format!("{side}: {answer:?}"));
    }
    tally.kind("fixed texts, answers as written down");
    for (name, text, refusal) in texts::fixed() {
        let answer = proved(&text, SMOOTH, STAFF, (0, 0, 0, 0));
        let right = match refusal {
            Some((number, line)) => answer == Given::Refused(number, line),
            None => matches!(answer, Given::Sheet(..)),
        };
        tally.count(right, || format!("{name}: {answer:?}"));
    }
    tally.kind("readers that are none");
    for reader in [2, 3, 112, 255, 256, 65_537, u32::MAX] {
        for (name, text, _) in texts::fixed() {
            let mut answer = proved(&text, SMOOTH, reader, (0, 0, 0, 0));
            if faults.kind == "a reader that is none taken" {
                answer = proved(&text, SMOOTH, reader & 1, (0, 0, 0, 0));
                faults.planted += u64::from(answer != Given::Refused(2, 0));
            }
            tally.count(answer == expected(&text, SMOOTH, reader), || format!("{reader}, {name}: {answer:?}"));
        }
    }
    compare_pages(count, seed, faults, &mut tally);
    tally
}

/// What a partner gets of a text (M-110): a refused text is refused as for the staff. And of the same text with other hidden levels: what it gets of the text.
fn partner(text: &[u8], limits: Limits, faults: &mut Faults, tally: &mut Tally) {
    let mut answer = proved(text, limits, PARTNER, (0, 0, 0, 0));
    if faults.kind == "the staff's levels for a partner" {
        let staff = proved(text, limits, STAFF, (0, 0, 0, 0));
        faults.planted += u64::from(staff != answer);
        answer = staff;
    }
    let due = expected(text, limits, PARTNER);
    tally.count_in("by the partner", due == answer, || String::from_utf8_lossy(text).into_owned());
    let Some(sheet) = read(text, limits).ok().filter(|sheet| !sheet.marks.is_empty()) else {
        return;
    };
    let other = texts::hidden(&mut Random::new(text.len() as u64), &sheet).text();
    let mut answer = proved(&other, limits, PARTNER, (0, 0, 0, 0));
    if let (Given::Sheet((_, highs), ..), "a hidden level let through") = (&mut answer, faults.kind) {
        highs[last_hidden(&sheet)] += 1;
        faults.planted += 1;
    }
    let shown = || String::from_utf8_lossy(&other).into_owned();
    tally.count_in("other hidden levels, by the partner", due == answer, shown);
    let staff = proved(&other, limits, STAFF, (0, 0, 0, 0));
    let right = staff == expected(&other, limits, STAFF);
    let kind = match (expected(text, limits, STAFF) == staff, text.len() == other.len()) {
        (true, _) => "the same hidden levels, by the staff",
        (_, true) => "other hidden levels, by the staff",
        _ => "of other widths, by the staff",
    };
    tally.count_in(kind, right, || String::from_utf8_lossy(&other).into_owned());
}

/// Where the last level of the last marked block stands among all levels.
fn last_hidden(sheet: &Sheet) -> usize {
    let [c, row, column] = sheet.marks[sheet.marks.len() - 1].map(|n| n as usize);
    let before: u32 = sheet.channels[..c].iter().map(|own| own.w * own.h).sum();
    before as usize + 64 * (row * (sheet.channels[c].w as usize / 8) + column) + 63
}

/// M-106: fixed texts at their limits of iterations, each fixed text at each limit where something changes, and at each side limit half of `count` texts at a
/// limit whose counts lie about it. Says how often each answer was met.
fn compare_pages(count: u64, seed: u64, faults: &mut Faults, tally: &mut Tally) {
    let mut met = BTreeMap::<u32, u64>::new();
    let mut one = |tally: &mut Tally, kind: &str, text: &[u8], limits: Limits, due: Given| {
        let wide = || proved(text, Limits { iterations: 1000, ..limits }, STAFF, (0, 0, 0, 0));
        let answer = faults.plant_page(proved(text, limits, STAFF, (0, 0, 0, 0)), wide);
        *met.entry(if let Given::Refused(number, _) = due { number } else { 0 }).or_default() += 1;
        tally.count_in(kind, answer == due, || format!("{limits:?}: {}", String::from_utf8_lossy(text)));
    };
    for (text, iterations, refusal) in texts::paged() {
        let limits = Limits { iterations, ..SMOOTH };
        let due = match refusal {
            Some((number, line)) => Given::Refused(number, line),
            None => expected(&text, limits, STAFF),
        };
        one(tally, "pages, answers as written down", &text, limits, due);
    }
    let named = |iterations: u32| match iterations {
        n if texts::LIMITS.contains(&n) => format!("limit of iterations {n}"),
        0..=1000 => "another limit of iterations".into(),
        _ => "a limit above 1,001".into(),
    };
    let fixed: Vec<_> =
        texts::paged().into_iter().map(|page| page.0).chain(texts::fixed().into_iter().map(|f| f.1)).collect();
    for iterations in texts::LIMITS {
        for text in &fixed {
            let limits = Limits { iterations, ..SMOOTH };
            one(tally, &named(iterations), text, limits, expected(text, limits, STAFF));
        }
    }
    for side in [32, 512] {
        for (iterations, text) in texts::pages(seed, count / 2, side) {
            let limits = Limits { side, iterations };
            one(tally, &named(iterations), &text, limits, expected(&text, limits, STAFF));
        }
    }
    if faults.kind.is_empty() {
        println!("answers at limits of iterations, and how often (0: legal): {met:?}");
    }
}

/// `X number line`, or `M`, both lengths, the header's fields, four numbers of each of three channels (0 where there is none),
/// lows, highs, tables. A weight is its letter and a decimal number.
fn answer(result: &Result<Sheet, Refusal>) -> String {
    let sheet = match result {
        Err((number, line)) => return format!("X {number} {line}"),
        Ok(sheet) => sheet,
    };
    let c = &sheet.channels;
    let [lows, highs]: [Vec<i32>; 2] = [|c: &Channel| c.levels.lows.clone(), |c: &Channel| c.levels.highs.clone()]
        .map(|part| c.iter().flat_map(part).collect());
    let tables: Vec<u32> = c.iter().flat_map(|c| &c.table).copied().collect();
    let owns = c.iter().flat_map(|c| [c.w, c.h, c.across, c.down]).chain([0; 8]).take(12);
    let weights = sheet.weights().map(|weight| match weight {
        Weight::Bits(bits) => format!("h{bits}"),
        Weight::Whole(number) => format!("w{number}"),
    });
    [
        format!("M {} {}", lows.len(), tables.len()),
        joined([sheet.w, sheet.h, sheet.picture_w, sheet.picture_h, c.len() as u32], " "),
        sheet.mode().into(),
        joined(sheet.counts, " "),
        joined(weights, " "),
        joined(owns, " "),
        joined(lows, " "),
        joined(highs, " "),
        joined(tables, " "),
    ]
    .join(" ")
}

fn make(packed: bool, count: u64, seed: u64, folder: &Path, limit: u32) {
    let texts = texts::all(seed, count, limit, 1000);
    let results: Vec<_> = texts.iter().map(|(_, text)| read(text, Limits { side: limit, ..MOST })).collect();
    let answers = || results.iter().map(|result| answer(result) + "\n");
    if packed {
        texts::pack(folder, &texts, answers());
    } else {
        fs::create_dir_all(folder).expect("the folder");
        let file = |i: usize| folder.join(format!("{i:05}.tsv"));
        texts.iter().enumerate().for_each(|(i, (_, text))| fs::write(file(i + 1), text).expect("a text"));
        fs::write(folder.join("answers"), answers().collect::<String>()).expect("the answers");
    }
    let mut met = BTreeMap::<u32, usize>::new();
    results
        .iter()
        .for_each(|result| *met.entry(result.as_ref().err().map_or(0, |(number, _)| *number)).or_default() += 1);
    met.iter().for_each(|(number, times)| println!("refusal {number} (0: legal): {times}"));
}

fn bench(rounds: usize) {
    let mut r = Random::new(1);
    let mut channel = |_| Channel {
        w: 512,
        h: 512,
        across: 1,
        down: 1,
        table: (0..64).map(|_| r.between(1, 255) as u32).collect(),
        levels: (0..512 * 512).map(|_| r.between(-2047, 2047) as i32).collect(),
    };
    let channels = (0..3).map(&mut channel).collect();
    let weights = [Weight::Whole(1); 3];
    let sheet = Sheet {
        w: 512,
        h: 512,
        picture_w: 512,
        picture_h: 512,
        joint: true,
        counts: [1; 3],
        smoothing: weights,
        data: weights,
        rounding: None,
        reorder: None,
        hold: None,
        marks: vec![],
        channels,
    };
    let text = sheet.text();
    assert_eq!(read(&text, MOST).as_ref(), Ok(&sheet));
    let ([mut lows, mut highs], mut tables) = ([0; 2].map(|_| vec![1i16; 3 * 512 * 512]), vec![0u16; 192]);
    let (mut header, mut line) = ([0u32; probe::NUMBERS], 0);
    let (mut rust, mut proved) = (vec![], vec![]);
    for _ in 0..rounds {
        let mut answer = None;
        rust.push(cpu_of(|| answer = read(&text, MOST).ok()));
        proved.push(cpu_of(|| {
            assert_eq!(probe::read(&text, MOST, STAFF, &mut lows, &mut highs, &mut tables, &mut header, &mut line), 0);
        }));
        assert_eq!(answer.as_ref(), Some(&sheet));
    }
    let ((p, p_median), (q, q_median)) = (best_median(rust), best_median(proved));
    let each = |time: f64, median: f64| {
        format!("{:.2} ms (median {:.2}), {:.2} ns a byte", time * 1e3, median * 1e3, time * 1e9 / text.len() as f64)
    };
    println!("{} bytes read in {} by the oracle", text.len(), each(p, p_median));
    println!(
        "{} by the proved reader, ratio {:.2} (of the medians {:.2})",
        each(q, q_median),
        q / p,
        q_median / p_median
    );
}
