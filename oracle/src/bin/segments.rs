//! The proved calls for DQT segments beside the oracle's own: answer, and every value of what is written.
//!
//!     segments [N [SEED]]     N segments at random (100,000), a fifth as many tables to export, fixed ones, and those of the JPEG files in oracle/jpeg
//!     segments --faults       plants faults, one kind after another, and fails unless each is reported
//!     segments --list N SEED  N of them for replay, lines `import ANSWER LENGTH SEGMENT`, and the tables, 77 before, afterwards; `export ANSWER LENGTH OUTPUT`,
//!                             the output, 77 before, afterwards, and the tables; LENGTH is that of the tables; numbers in hexadecimal, bytes in two digits
//!
//! Segments are legal, with 1 to 1,008 tables, or damaged at some rule, or at two.
use oracle::{
    probe::{smoother_dqt_export, smoother_dqt_import},
    random::Random,
    segments::{FILES, export, import, of_file},
    tally::Tally,
    tapes::walk,
};
use std::{collections::BTreeMap, process::ExitCode};

fn main() -> ExitCode {
    let args: Vec<String> = std::env::args().skip(1).collect();
    let number = |i: usize, default: u64| args.get(i).map_or(default, |a| a.parse().expect("a whole number"));
    match args.first().map(String::as_str) {
        Some("--faults") => faults(),
        Some("--list") => {
            list(number(1, 100), number(2, 1));
            ExitCode::SUCCESS
        }
        _ => {
            println!("seed {}", number(1, 1));
            let (tally, answers) = compare(number(0, 100_000), number(1, 1), "");
            println!("answers of each call, and how often: {answers:?}");
            tally.close()
        }
    }
}

/// What a call is lent: a segment and tables to be written, or tables and the output's length.
#[derive(Clone, Debug)]
enum Lent {
    Import { segment: Vec<u8>, tables: Vec<u16> },
    Export { tables: Vec<u16>, out: Vec<u8> },
}

use Lent::*;

#[derive(Clone, Debug)]
struct Case {
    kind: String,
    lent: Lent,
}

/// A call's answer and what it wrote, quantisers and bytes alike as numbers.
type Given = (u32, Vec<u16>);

fn wide(bytes: Vec<u8>) -> Vec<u16> {
    bytes.into_iter().map(u16::from).collect()
}

impl Lent {
    fn own(&self) -> Given {
        match self.clone() {
            Import { segment, mut tables } => (import(&segment, &mut tables), tables),
            Export { tables, mut out } => (export(&tables, &mut out), wide(out)),
        }
    }

    fn proved(&self) -> Given {
        // SAFETY: each pointer and length are of one slice, and the slices do not overlap.
        match self.clone() {
            Import { segment: s, tables: mut t } => {
                (unsafe { smoother_dqt_import(s.as_ptr(), s.len(), t.as_mut_ptr(), t.len()) }, t)
            }
            Export { tables: t, out: mut o } => {
                (unsafe { smoother_dqt_export(t.as_ptr(), t.len(), o.as_mut_ptr(), o.len()) }, wide(o))
            }
        }
    }

    fn before(&self) -> Vec<u16> {
        match self.clone() {
            Import { tables, .. } => tables,
            Export { out, .. } => wide(out),
        }
    }

    fn name(&self) -> &'static str {
        if matches!(self, Import { .. }) { "import" } else { "export" }
    }
}

fn segment(body: &[u8]) -> Vec<u8> {
    let stated = (body.len() as u16).wrapping_add(2);
    [&[0xff, 0xdb][..], &stated.to_be_bytes(), body].concat()
}

fn table(r: &mut Random, head: u8) -> Vec<u8> {
    let mut bytes = vec![head];
    bytes.extend((0..64).map(|_| r.between(1, 255) as u8));
    bytes
}

/// How many tables: one to five mostly, at times as many as a segment holds.
fn count(r: &mut Random) -> usize {
    match r.below(400) {
        0 => 1008,
        1 => 1 + r.below(1008),
        2..12 => 1 + r.below(40),
        _ => 1 + r.below(5),
    }
}

fn bodies(r: &mut Random) -> Vec<u8> {
    let n = count(r);
    let mut body = vec![];
    for _ in 0..n {
        let head = r.below(4) as u8;
        body.extend(table(r, head));
    }
    body
}

/// A rule broken in the tables: at a head or an element of some table, or in the length of the last.
fn damage(r: &mut Random, body: &mut Vec<u8>) -> &'static str {
    let tables = body.len().div_ceil(65).max(1);
    let at = if r.one_in(3) { tables - 1 } else { r.below(tables) } * 65;
    match r.below(6) {
        0 => {
            set(body, at, r.pick(&[0x10, 0x11, 0x1f, 0x20, 0xf0, 0x13]));
            "precision"
        }
        1 => {
            set(body, at, r.pick(&[4, 5, 8, 15]));
            "destination"
        }
        2 | 3 => {
            set(body, at + 1 + r.below(64), 0);
            "zero quantiser"
        }
        4 => {
            let cut = 1 + r.below(64);
            body.truncate(body.len().saturating_sub(cut));
            "last table cut"
        }
        _ => {
            let head = r.pick(&[0, 1, 2, 3, 4, 0x10]);
            body.push(head);
            let more = r.pick(&[0, 0, 1, 20, 63]);
            body.extend((0..more).map(|_| r.pick(&[0, 1, 200])));
            "a table begun"
        }
    }
}

fn set(body: &mut [u8], at: usize, byte: u8) {
    if let Some(place) = body.get_mut(at) {
        *place = byte;
    }
}

/// A rule broken in what stands before the tables, or in the segment's length.
fn frame(r: &mut Random, segment: &mut Vec<u8>) -> &'static str {
    match r.below(6) {
        0 => {
            set(segment, 0, r.pick(&[0, 0xfe, 0xdb]));
            "marker's first byte"
        }
        1 => {
            set(segment, 1, r.pick(&[0xda, 0xc4, 0xff, 0xdc, 0]));
            "marker's second byte"
        }
        2 => {
            let off = r.pick(&[1_u16, 2, 4, 65, 256, 0xfffe, 0xffff]);
            let stated = segment.get(2..4).map_or(0, |b| u16::from_be_bytes([b[0], b[1]])).wrapping_add(off);
            for (k, byte) in stated.to_be_bytes().into_iter().enumerate() {
                set(segment, 2 + k, byte);
            }
            "stated length"
        }
        3 => {
            segment.insert(0, 0xff);
            "a fill byte"
        }
        4 => {
            let n = r.below(segment.len() + 1);
            segment.truncate(n);
            "segment cut"
        }
        _ => {
            let n = 1 + r.below(3);
            segment.extend(std::iter::repeat_n(1, n));
            "bytes after it"
        }
    }
}

fn old(r: &mut Random) -> Vec<u16> {
    let first = r.bits() as u16;
    (0..256).map(|k| if r.one_in(9) { 0 } else { first.wrapping_add(k) }).collect()
}

fn importing(r: &mut Random) -> Case {
    let mut body = bodies(r);
    let mut kind = "legal";
    let choice = r.below(9);
    if choice >= 3 && choice < 7 {
        kind = damage(r, &mut body);
    }
    if choice == 6 {
        damage(r, &mut body);
        kind = "two faults of tables";
    }
    let mut segment = segment(&body);
    if choice >= 7 {
        kind = frame(r, &mut segment);
    }
    if choice == 8 {
        damage(r, &mut body);
        segment = self::segment(&body);
        frame(r, &mut segment);
        kind = "faults of a table and the frame";
    }
    if r.one_in(200) {
        segment = (0..r.below(200)).map(|_| r.pick(&[0xff, 0xdb, 0, 1, 67, 0x43])).collect();
        kind = "any bytes";
    }
    let mut tables = old(r);
    if r.one_in(20) {
        tables.resize(r.pick(&[0, 64, 192, 255, 257, 320]), 1);
        kind = "a wrong length, and what else";
    }
    Case { kind: kind.into(), lent: Import { segment, tables } }
}

fn exporting(r: &mut Random) -> Case {
    let mut tables: Vec<u16> = (0..256).map(|_| r.between(1, 255) as u16).collect();
    let mut kind = "export";
    for _ in 0..r.pick(&[0, 0, 1, 2]) {
        let somewhere = r.below(256);
        let at = r.pick(&[somewhere, 255, 0, 64]);
        tables[at] = r.pick(&[0, 256, 257, 511, 512, 65_535, 65_281, 255, 1]);
        kind = "export with a quantiser changed";
    }
    let mut out = vec![r.bits() as u8; 264];
    if r.one_in(8) {
        kind = "export with a wrong length";
        if r.one_in(2) {
            tables.resize(r.pick(&[0, 255, 257, 64]), 1);
        } else {
            out.resize(r.pick(&[0, 263, 265, 262, 256]), 1);
        }
    }
    Case { kind: kind.into(), lent: Export { tables, out } }
}

fn any(r: &mut Random) -> Case {
    if r.one_in(6) { exporting(r) } else { importing(r) }
}

/// The segments of the JPEG files, each file's tables in one segment, and the inputs that document 02's words turn on.
fn fixed() -> Vec<Case> {
    let mut cases = vec![];
    let mut add = |kind: String, segment: Vec<u8>| {
        cases.push(Case { kind, lent: Import { segment, tables: (500..756).collect() } });
    };
    for (_, file) in FILES {
        let found = of_file(file);
        for s in &found {
            add("of a JPEG file".into(), s.to_vec());
        }
        let joined: Vec<u8> = found.iter().flat_map(|s| s[4..].to_vec()).collect();
        add("of a JPEG file, joined".into(), segment(&joined));
    }
    let good = |head: u8| [vec![head], (1..65).collect()].concat();
    let zero = |head: u8| [vec![head], vec![0; 64]].concat();
    for body in [
        good(0),
        good(3),
        good(4),
        good(0x10),
        zero(0x10),
        zero(4),
        zero(0),
        [good(0), vec![0x10]].concat(),
        [good(0), vec![0]].concat(),
        [good(0), vec![4]].concat(),
        [zero(0), vec![4]].concat(),
        [zero(0), good(4)].concat(),
        [good(0), zero(0)[..40].to_vec()].concat(),
        [good(0), good(1), good(2), good(3), zero(0)].concat(),
        [good(2), zero(2), good(2)].concat(),
        good(0).repeat(1008),
        [good(1).repeat(1008), vec![0; 13]].concat(),
        [good(1).repeat(1008), vec![4; 13]].concat(),
        [vec![0x10], vec![1; 128]].concat(),
        vec![0x10; 64],
        vec![],
    ] {
        add("fixed".into(), segment(&body));
    }
    let whole = segment(&good(0));
    for n in 0..whole.len() {
        add("fixed".into(), whole[..n].to_vec());
    }
    for at in 0..4 {
        for byte in [0, 1, 66, 67, 68, 0xdb, 0xff] {
            let mut s = whole.clone();
            s[at] = byte;
            add("fixed".into(), s);
        }
    }
    add("fixed".into(), [vec![0xff], whole.clone()].concat());
    cases.push(Case { kind: "fixed".into(), lent: Import { segment: vec![], tables: vec![0; 255] } });
    for at in 0..256 {
        for q in [0, 256, 65_535] {
            let mut tables = vec![255; 256];
            tables[at] = q;
            cases.push(Case { kind: "fixed export".into(), lent: Export { tables, out: vec![7; 264] } });
        }
    }
    cases
}

/// What the proved call is made to say, under a planted fault.
fn planted(lent: &Lent, (mut number, mut written): Given, fault: &str) -> Given {
    let (done, importing) = (number == 0, matches!(lent, Import { .. }));
    match fault {
        "another number" => number ^= 1,
        "done for a refusal" => number = 0,
        "19 for 20" if number == 20 => number = 19,
        "20 for 19" if number == 19 => number = 20,
        "written by a refusal" if !done && !written.is_empty() => written[0] ^= 1,
        "not written" if done => written = lent.before(),
        "zigzag not undone" if done && importing => {
            let walk = walk();
            written = written.chunks(64).flat_map(|table| walk.map(|place| table[place])).collect();
        }
        "unnamed destinations cleared" if done => {
            if let Import { segment, .. } = lent {
                for (d, table) in written.chunks_mut(64).enumerate() {
                    if segment[4..].chunks(65).all(|t| usize::from(t[0]) != d) {
                        table.fill(0);
                    }
                }
            }
        }
        "the first table counts" if done => {
            if let Import { segment, tables } = lent {
                let backwards: Vec<u8> = segment[4..].chunks(65).rev().flatten().copied().collect();
                written = tables.clone();
                import(&self::segment(&backwards), &mut written);
            }
        }
        "a byte of the export" if done && !importing => written[3] ^= 1,
        _ => {}
    }
    (number, written)
}

const FAULTS: [&str; 10] = [
    "another number",
    "done for a refusal",
    "19 for 20",
    "20 for 19",
    "written by a refusal",
    "not written",
    "zigzag not undone",
    "unnamed destinations cleared",
    "the first table counts",
    "a byte of the export",
];

fn compare(count: u64, seed: u64, fault: &str) -> (Tally, BTreeMap<(&'static str, u32), u64>) {
    let (mut tally, mut answers) = (Tally::default(), BTreeMap::new());
    let mut r = Random::new(seed);
    let cases = fixed();
    let drawn = (0..count + count / 5).map(Some);
    for i in std::iter::repeat_n(None, cases.len()).chain(drawn).enumerate() {
        let case = match i {
            (at, None) => cases[at].clone(),
            (_, Some(k)) if k % 6 == 5 => exporting(&mut r),
            _ => importing(&mut r),
        };
        let own = case.lent.own();
        let given = planted(&case.lent, case.lent.proved(), fault);
        *answers.entry((case.lent.name(), own.0)).or_insert(0) += 1;
        tally.count_in(&case.kind, own == given, || {
            format!("{}: {}, not {}, or another value", case.lent.name(), given.0, own.0)
        });
        // importing an export yields the same tables, whatever stood there
        if let (Export { tables, .. }, 0) = (&case.lent, own.0) {
            let segment = given.1.iter().map(|b| *b as u8).collect();
            let back = Import { segment, tables: old(&mut r) }.proved();
            tally.count_in("an export imported", back == (0, tables.clone()), || format!("{}", back.0));
        }
    }
    (tally, answers)
}

fn faults() -> ExitCode {
    let missed: Vec<&str> = FAULTS.into_iter().filter(|fault| compare(2000, 1, fault).0.differ() == 0).collect();
    println!("{} faults planted, {} not reported {missed:?}", FAULTS.len(), missed.len());
    u8::from(!missed.is_empty()).into()
}

fn hex(bytes: &[u8]) -> String {
    bytes.iter().map(|b| format!("{b:02x}")).collect()
}

fn list(count: u64, seed: u64) {
    let mut r = Random::new(seed);
    let (exports, imports): (Vec<Case>, Vec<Case>) = fixed().into_iter().partition(|case| case.kind == "fixed export");
    let (files, rest): (Vec<Case>, Vec<Case>) = imports.into_iter().partition(|case| case.kind != "fixed");
    let fixed = files.into_iter().chain(rest.into_iter().step_by(3)).chain(exports.into_iter().step_by(90));
    let short = |case: &Case| match &case.lent {
        Import { segment, tables } => segment.len() <= 1024 && tables.len() <= 256,
        Export { tables, out } => tables.len() <= 256 && out.len() <= 264,
    };
    for case in fixed.chain(std::iter::repeat_with(|| any(&mut r))).filter(short).take(count as usize) {
        let (answer, bytes, tables) = match case.lent {
            Import { segment, tables } => {
                let mut tables = vec![77; tables.len()];
                (import(&segment, &mut tables), segment, tables)
            }
            Export { tables, out } => {
                let mut out = vec![77; out.len()];
                (export(&tables, &mut out), out, tables)
            }
        };
        let name = if case.kind.contains("export") { "export" } else { "import" };
        print!("{name} {answer:x} {:x} {}", tables.len(), hex(&bytes));
        for q in tables {
            print!(" {q:x}");
        }
        println!();
    }
}
