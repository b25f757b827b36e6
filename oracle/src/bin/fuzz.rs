//! Runs the program `smooth` on inputs that nobody would send.
//!
//!     fuzz PROGRAM [N [SEED]]     fixed inputs of 0 bytes to 100 MB, then N at random (100,000)
//!
//! On each it has to end within a second with status 0, say nothing on standard error, and print one complete picture or one line X; and it has to print
//! what the oracle's own reader and the published Rust give. Sheets that are accepted keep iteration counts up to 3. An input at fault is kept in target/fuzz.
use oracle::{
    picture::smooth,
    program::{Ending, answers, run_patiently, well_formed},
    random::Random,
    sheet::{SMOOTH, read},
    tally::Tally,
    texts::{self, DAMAGES, example},
};
use std::{fs, path::Path, process::ExitCode, time::Duration};

const STEPS: u32 = 3;
/// A kind of input: its name, its share of all, and one of them.
type Kind = (&'static str, usize, fn(&mut Random) -> Vec<u8>);

const KINDS: [Kind; 5] = [
    ("random bytes", 1, bytes),
    ("random tokens", 2, tokens),
    ("random lines", 2, lines),
    ("damaged sheets", 4, damaged),
    ("legal sheets", 1, |r| texts::legal(r, 32, STEPS).text()),
];

fn bytes(r: &mut Random) -> Vec<u8> {
    let most = r.pick(&[4, 40, 400, 4_000]);
    let length = r.below(most + 1);
    let alphabet: &[u8] =
        r.pick(&[b"".as_slice(), b"\t\n", b"0123456789\t\n-", b"SFAHCBGNEtnmojswh0123456789abcdef\t\n- \r"]);
    (0..length).map(|_| if alphabet.is_empty() { r.word() as u8 } else { r.pick(alphabet) }).collect()
}

const TOKENS: [&str; 54] = [
    "S",
    "F",
    "A",
    "H",
    "C",
    "B",
    "G",
    "N",
    "E",
    "\t",
    "\t",
    "\t",
    "\n",
    "\n",
    "E\n",
    "S\t",
    "F\t",
    "A\t",
    "H\t",
    "C\t",
    "B\t",
    "G\t",
    "N\t",
    "j",
    "s",
    "t",
    "n",
    "m",
    "o",
    "w0",
    "w1",
    "w255",
    "w256",
    "h00000000",
    "h3f800000",
    "h7f800000",
    "h80000000",
    "hffffffff",
    "0",
    "1",
    "3",
    "8",
    "16",
    "32",
    "40",
    "255",
    "256",
    "2047",
    "2048",
    "-1",
    "-2048",
    "-0",
    "999999",
    "1000000",
];

fn tokens(r: &mut Random) -> Vec<u8> {
    let most = r.pick(&[3, 30, 300]);
    (0..r.below(most + 1)).flat_map(|_| r.pick(&TOKENS).bytes()).collect()
}

/// Lines with the right tags and field counts, and fields that are mostly right, in an order that is mostly right.
fn lines(r: &mut Random) -> Vec<u8> {
    let odd = r.pick(&[20, 100, 1_000]);
    let mut field = |words: &[&'static str]| if r.one_in(odd) { r.pick(&TOKENS[23..]) } else { r.pick(words) };
    let (full, sides) = (["16", "16", "32"], ["8", "8", "16"]);
    let factors = ["1", "1", "2"];
    let channels = field(&["1", "3"]);
    let mut text =
        vec!["S", field(&full), field(&full), field(&["1", "8"]), field(&["1", "8"]), channels, field(&["j", "s"])];
    text.extend([0; 3].map(|_| field(&["0", "1", "3"])));
    text.extend([0; 6].map(|_| field(&["w0", "w1", "w255", "h3f800000", "h00000001", "h7f7fffff"])));
    for line in [["", "\nF\tt", "\nF\tn", "\nF\tn", "\nF"], ["", "\nA\tm", "\nA\to", "\nA\to", "\nA"]] {
        text.extend(field(&line).split('\t').filter(|word| !word.is_empty()));
    }
    if field(&["", "", "H"]) == "H" {
        text.extend(["\n", "H"]);
        text.extend([0; 3].map(|_| field(&["0", "0", "1"])));
    }
    for _ in 0..channels.parse().unwrap_or(1).min(3) {
        let (w, h) = (field(&sides), field(&["8"]));
        text.extend(["\n", "C", w, h, field(&factors), field(&factors)]);
        text.extend([0; 64].map(|_| field(&["1", "2", "16", "255"])));
        for _ in 0..w.parse::<u32>().unwrap_or(8).min(32) / 8 {
            let tag = field(&["B", "B", "G"]);
            text.extend(["\n", tag]);
            if tag == "G" {
                let pairs = ["0\t0", "0\t0", "0\t1", "-1\t-1", "-12\t12", "-2047\t2047"];
                text.extend([0; 64].map(|_| field(&pairs)));
            } else {
                text.extend([0; 64].map(|_| field(&["0", "0", "0", "1", "-1", "12", "-2047", "2047"])));
            }
        }
    }
    for _ in 0..field(&["0", "0", "1", "2"]).parse::<u32>().unwrap_or(0).min(3) {
        text.extend(["\n", "N", field(&["0", "0", "0", "1", "2"]), field(&["0"]), field(&["0", "0", "1"])]);
    }
    text.extend(["\n", "E", "\n"]);
    text.join("\t").replace("\t\n", "\n").replace("\n\t", "\n").into_bytes()
}

fn damaged(r: &mut Random) -> Vec<u8> {
    let mut text = texts::legal(r, 32, STEPS).text();
    for _ in 0..r.pick(&[1, 1, 2, 3, 8]) {
        let (from, to) = (r.below(text.len() + 1), r.below(text.len() + 1));
        let (from, to) = (from.min(to), from.max(to));
        match r.below(10) {
            0 if from < text.len() => text[from] ^= 1 << r.below(8),
            1 => drop(text.drain(from..to)),
            2 => {
                let part = text[from..to].to_vec();
                let at = r.below(text.len() + 1);
                text.splice(at..at, part);
            }
            3 => {
                let other = texts::legal(r, 32, STEPS).text();
                text.splice(from.., other[r.below(other.len())..].to_vec());
            }
            4 => {
                let part = tokens(r);
                text.splice(from..to.min(from + 3), part);
            }
            _ => r.pick(&DAMAGES).1(r, &mut text),
        }
        if text.is_empty() {
            break;
        }
    }
    text
}

/// The same text, but for iteration counts above STEPS in a legal sheet.
fn short(text: Vec<u8>) -> Vec<u8> {
    match read(&text, SMOOTH) {
        Ok(mut sheet) if sheet.counts.iter().any(|n| *n > STEPS) => {
            sheet.counts = sheet.counts.map(|n| n.min(STEPS));
            sheet.held_within().text()
        }
        _ => text,
    }
}

/// Inputs of 0 bytes, of 1 byte and of 100 MB, with what document 01 gives for them.
fn fixed() -> Vec<(Vec<u8>, &'static str)> {
    const LONG: usize = 100_000_000;
    let then = |start: &[u8], byte: u8| {
        let mut text = start.to_vec();
        text.resize(LONG, byte);
        text
    };
    let whole = example();
    let without_end = &whole[..whole.len() - 2];
    let mut all = vec![(vec![], "X\t7\t1\n")];
    all.extend((0..=255).map(|byte| (vec![byte], if byte == b'\n' { "X\t1\t1\n" } else { "X\t7\t1\n" })));
    all.extend([
        (then(b"", b'a'), "X\t1\t1\n"),
        (then(b"", 0), "X\t1\t1\n"),
        (then(b"", b'\n'), "X\t1\t1\n"),
        (then(b"", b'\t'), "X\t1\t1\n"),
        (then(b"S\n", b'a'), "X\t1\t1\n"),
        (then(without_end, b'B'), "X\t1\t4\n"),
        (then(without_end, b'\n'), "X\t1\t4\n"),
        (then(&whole, b'\n'), "X\t7\t5\n"),
        (then(&whole, b'a'), "X\t7\t5\n"),
        (whole.repeat(LONG / whole.len() + 1), "X\t7\t5\n"),
    ]);
    all
}

/// What is wrong with how the program ends on a text.
fn fault(program: &str, text: &[u8], due: &str) -> Option<String> {
    match run_patiently(program, text, Duration::from_secs(1)) {
        Ending::Late => Some("not ended within a second".into()),
        Ending::Ended { status, .. } if status != Some(0) => Some(format!("exit status {status:?}")),
        Ending::Ended { complained: true, .. } => Some("something on standard error".into()),
        Ending::Ended { printed, .. } => {
            let shown = String::from_utf8_lossy(&printed);
            if !well_formed(&printed) {
                Some(format!("neither a picture nor a line X: {shown:?}"))
            } else if printed != due.as_bytes() {
                Some(format!("due {due:?}, printed {shown:?}"))
            } else {
                None
            }
        }
    }
}

fn keep(text: &[u8], kind: &str, number: u64) -> String {
    let folder = Path::new("target/fuzz");
    let path = folder.join(format!("{}-{number}.tsv", kind.replace(' ', "-")));
    let kept = fs::create_dir_all(folder).and_then(|()| fs::write(&path, text));
    kept.map_or_else(|e| format!("not kept: {e}"), |()| path.display().to_string())
}

fn main() -> ExitCode {
    let args: Vec<String> = std::env::args().skip(1).collect();
    let program = args.first().expect("a program");
    let number = |i: usize, default: u64| args.get(i).map_or(default, |a| a.parse().expect("a whole number"));
    let (count, seed) = (number(1, 100_000), number(2, 1));
    let mut tally = Tally::default();
    for (i, (text, due)) in fixed().iter().enumerate() {
        assert_eq!(smooth(text), *due, "the oracle's own answer for {} bytes", text.len());
        let kind = match text.len() {
            0 => "0 bytes",
            1 => "1 byte",
            _ => "100 MB",
        };
        let fault = fault(program, text, due);
        tally.count_in(kind, fault.is_none(), || format!("{}: input {i} of {} bytes", fault.expect("one"), text.len()));
    }
    let shares: Vec<_> = KINDS.iter().flat_map(|kind| vec![kind; kind.1]).collect();
    let (mut pictures, mut refusals) = (0, [0; 21]);
    let all: Vec<u64> = (0..count).collect();
    for part in all.chunks(2_000) {
        let ended = answers(part, 2, |i| {
            let mut r = Random::new(seed.wrapping_mul(1_000_000_007).wrapping_add(*i));
            let (kind, _, make) = r.pick(&shares);
            let text = short(make(&mut r));
            let due = smooth(&text);
            (*kind, fault(program, &text, &due), due, text)
        });
        for (i, (kind, fault, due, text)) in part.iter().zip(ended) {
            match due.strip_prefix("X\t").and_then(|rest| rest.split('\t').next()?.parse::<usize>().ok()) {
                Some(number) => refusals[number] += 1,
                None => pictures += 1,
            }
            tally.count_in(kind, fault.is_none(), || {
                format!("{}; input {}", fault.expect("one"), keep(&text, kind, *i))
            });
        }
    }
    let refusals: Vec<String> =
        (1..=20).filter(|n| refusals[*n] > 0).map(|n| format!("{n}: {}", refusals[n])).collect();
    println!("{pictures} pictures; refusals {}", refusals.join(", "));
    tally.close()
}
