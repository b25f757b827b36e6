//! The proved calls for the archive tapes beside the oracle's own: answer, and every value of the slice that is written.
//!
//!     tapes [N [SEED]]        N slices at random (100,000), and fixed ones
//!     tapes --faults          plants faults, one kind after another, and fails unless each is reported
//!     tapes --list N SEED     N slices for replay, lines `CALL ANSWER LENGTH LENGTH`, the values read, and those of the other slice, 77 before, afterwards;
//!                             numbers in hexadecimal, a value modulo 2^16
//!
//! Slices are legal, or damaged in a level, a difference, a length, or two of these.
use oracle::{
    probe::{smoother_rearrange, smoother_restore},
    random::Random,
    tally::Tally,
    tapes::{rearrange, restore, walk},
};
use std::{collections::BTreeMap, process::ExitCode};

fn main() -> ExitCode {
    let args: Vec<String> = std::env::args().skip(1).collect();
    let number = |i: usize, default: u64| args.get(i).map_or(default, |a| a.parse().expect("a whole number"));
    match args.first().map(String::as_str) {
        Some("--faults") => faults(),
        Some("--list") => {
            list(number(1, 100), number(2, 1));
            ExitCode::SUCCESS
        }
        _ => {
            println!("seed {}", number(1, 1));
            let (tally, answers) = compare(number(0, 100_000), number(1, 1), "");
            println!("answers of each call, and how often: {answers:?}");
            tally.close()
        }
    }
}

#[derive(Clone, Copy, Debug, PartialEq, Eq, PartialOrd, Ord)]
enum Call {
    Rearrange,
    Restore,
}

use Call::*;

/// A call on slices: what is read, and the length of what is written.
#[derive(Clone, Debug)]
struct Case {
    kind: &'static str,
    call: Call,
    from: Vec<i16>,
    room: usize,
}

impl Case {
    fn new(kind: &'static str, call: Call, from: Vec<i16>) -> Self {
        Self { kind, call, room: from.len(), from }
    }

    fn own(&self, out: &mut [i16]) -> u32 {
        match self.call {
            Rearrange => rearrange(&self.from, out),
            Restore => restore(&self.from, out),
        }
    }

    fn proved(&self, out: &mut [i16]) -> u32 {
        let (from, n, to, m) = (self.from.as_ptr(), self.from.len(), out.as_mut_ptr(), out.len());
        // SAFETY: each pointer and length are of one slice, and the slices do not overlap.
        unsafe {
            match self.call {
                Rearrange => smoother_rearrange(from, n, to, m),
                Restore => smoother_restore(from, n, to, m),
            }
        }
    }
}

/// How many blocks: few mostly, at times a channel of 512 by 512.
fn blocks(r: &mut Random) -> usize {
    if r.one_in(2000) { 4096 } else { r.pick(&[0, 1, 1, 2, 3, 5, 12]) }
}

fn level(r: &mut Random) -> i16 {
    match r.below(6) {
        0 => r.pick(&[-2047, 2047, -2046, 2046, 0, 1, -1]),
        _ => r.between(-2047, 2047) as i16,
    }
}

fn levels(r: &mut Random) -> Vec<i16> {
    let n = 64 * blocks(r);
    (0..n).map(|_| level(r)).collect()
}

/// Levels whose first ones jump from one end to the other, so that the differences are 4,094 and -4,094.
fn jumping(r: &mut Random) -> Vec<i16> {
    let mut xs = levels(r);
    let mut sign = r.pick(&[1, -1]);
    for block in xs.chunks_mut(64) {
        block[0] = sign * 2047;
        sign = -sign;
    }
    xs
}

fn stored(xs: &[i16]) -> Vec<i16> {
    let mut out = vec![0; xs.len()];
    assert_eq!(rearrange(xs, &mut out), 0);
    out
}

/// A value changed somewhere, often at the first place of a block or in the last one.
fn damage(r: &mut Random, xs: &mut [i16]) {
    if xs.is_empty() {
        return;
    }
    let block = if r.one_in(3) { xs.len() / 64 } else { r.below(xs.len().div_ceil(64)) };
    let at = block * 64 + if r.one_in(2) { 0 } else { r.below(64) };
    let value = match r.below(4) {
        0 => r.pick(&[2048, -2048, 4094, -4094, 4095, -4095]),
        1 => r.pick(&[i16::MIN, i16::MAX]),
        2 => r.bits() as i16,
        _ => level(r),
    };
    let last = xs.len() - 1;
    xs[at.min(last)] = value;
}

/// A case at random.
fn any(r: &mut Random) -> Case {
    let mut case = match r.below(10) {
        0 | 1 => Case::new("legal levels", Rearrange, levels(r)),
        2 => Case::new("levels from end to end", Rearrange, jumping(r)),
        3 => Case::new("stored differences of 4,094", Restore, stored(&jumping(r))),
        4 => Case::new("stored levels", Restore, stored(&levels(r))),
        5 => Case::new("levels stored as they are", Restore, levels(r)),
        6 => {
            let n = 64 * blocks(r);
            Case::new("any values", r.pick(&[Rearrange, Restore]), (0..n).map(|_| r.bits() as i16).collect())
        }
        7 => {
            let mut xs = levels(r);
            damage(r, &mut xs);
            Case::new("a damaged level", Rearrange, xs)
        }
        8 => {
            let mut xs = stored(&levels(r));
            damage(r, &mut xs);
            Case::new("a damaged difference or value", Restore, xs)
        }
        _ => {
            let (call, mut xs) = if r.one_in(2) { (Rearrange, levels(r)) } else { (Restore, stored(&jumping(r))) };
            damage(r, &mut xs);
            damage(r, &mut xs);
            Case::new("two damaged values", call, xs)
        }
    };
    if r.one_in(8) {
        case.kind = "a wrong length";
        match r.below(4) {
            0 => case.room += r.pick(&[1, 63, 64, 128]),
            1 => case.room = case.room.saturating_sub(r.pick(&[1, 63, 64])),
            2 => {
                let n = r.below(64);
                case.from.truncate(case.from.len().saturating_sub(n));
                case.room = case.from.len();
            }
            _ => {
                let n = 1 + r.below(63);
                case.from.resize(case.from.len() + n, 2048);
                case.room = case.from.len();
            }
        }
    }
    case
}

/// The inputs that document 02's words turn on.
fn fixed() -> Vec<Case> {
    let block = |first: i16| -> Vec<i16> { (0..64).map(|k| if k == 0 { first } else { k }).collect() };
    let blocks = |firsts: &[i16]| -> Vec<i16> { firsts.iter().flat_map(|x| block(*x)).collect() };
    let mut cases = vec![
        Case::new("fixed", Rearrange, vec![]),
        Case::new("fixed", Restore, vec![]),
        Case { kind: "fixed", call: Rearrange, from: vec![], room: 64 },
        Case { kind: "fixed", call: Restore, from: block(1), room: 0 },
        Case { kind: "fixed", call: Restore, from: block(1), room: 128 },
        Case::new("fixed", Rearrange, vec![0; 63]),
        Case::new("fixed", Rearrange, vec![2048; 63]),
        Case { kind: "fixed", call: Rearrange, from: vec![2048; 64], room: 128 },
        Case { kind: "fixed", call: Restore, from: vec![i16::MIN; 64], room: 63 },
    ];
    for firsts in [
        vec![-2047, 4094],
        vec![2047, -4094, 4094],
        vec![2047, 1],
        vec![2047, 0, 1],
        vec![-2047, -1],
        vec![-2047, 4095],
        vec![2047, i16::MIN],
        vec![-2047, i16::MIN],
        vec![i16::MIN],
        vec![i16::MIN, i16::MAX, 1],
        vec![i16::MAX, i16::MAX, 2],
        vec![2048, -1],
        vec![1000, 1000, 47, -4094],
    ] {
        for call in [Rearrange, Restore] {
            cases.push(Case::new("fixed", call, blocks(&firsts)));
        }
    }
    // one value beyond the range, at each place of two blocks, in both directions
    for k in 0..128 {
        for value in [2047, -2047, 2048, -2048] {
            for call in [Rearrange, Restore] {
                let mut xs = vec![0; 128];
                xs[k] = value;
                cases.push(Case::new("fixed", call, xs));
            }
        }
    }
    cases
}

/// What the proved call is made to say, under a planted fault.
fn planted(case: &Case, before: &[i16], mut number: u32, mut out: Vec<i16>, fault: &str) -> (u32, Vec<i16>) {
    let done = number == 0;
    match fault {
        "" => {}
        "another number" => number ^= 1,
        "done for a refusal" => number = 0,
        "8 after 5" if number == 8 && case.from.iter().any(|x| x.abs_diff(0) > 2047) => number = 5,
        "one value" if done && !out.is_empty() => out[0] ^= 1,
        "written by a refusal" if !done && !out.is_empty() => *out.last_mut().expect("a value") ^= 1,
        "not written" if done => out = before.to_vec(),
        "the inverse zigzag" if done && case.call == Rearrange => {
            let walk = walk();
            for (block, from) in out.chunks_mut(64).zip(case.from.chunks(64)) {
                for k in 1..64 {
                    block[walk[k]] = from[k];
                }
            }
        }
        "no differences" if done && case.call == Rearrange => {
            for (block, from) in out.chunks_mut(64).zip(case.from.chunks(64)) {
                block[0] = from[0];
            }
        }
        "a chain begun anew" if done && case.call == Restore => {
            for (block, from) in out.chunks_mut(64).zip(case.from.chunks(64)) {
                block[0] = from[0];
            }
        }
        _ => {}
    }
    (number, out)
}

const FAULTS: [&str; 9] = [
    "another number",
    "done for a refusal",
    "8 after 5",
    "one value",
    "written by a refusal",
    "not written",
    "the inverse zigzag",
    "no differences",
    "a chain begun anew",
];

fn compare(count: u64, seed: u64, fault: &str) -> (Tally, BTreeMap<(Call, u32), u64>) {
    let (mut tally, mut answers) = (Tally::default(), BTreeMap::new());
    let mut r = Random::new(seed);
    let cases = fixed();
    for i in 0..cases.len() as u64 + count {
        let case = cases.get(i as usize).cloned().unwrap_or_else(|| any(&mut r));
        let left = r.bits() as i16;
        let before: Vec<i16> = (0..case.room).map(|k| left.wrapping_add(k as i16)).collect();
        let (mut own, mut out) = (before.clone(), before.clone());
        let number = case.own(&mut own);
        let from = case.from.clone();
        let answer = case.proved(&mut out);
        assert_eq!(from, case.from, "what is only read");
        let (answer, out) = planted(&case, &before, answer, out, fault);
        *answers.entry((case.call, number)).or_insert(0) += 1;
        tally.count_in(case.kind, (number, &own) == (answer, &out), || {
            format!(
                "{:?} of {} values into {}: {answer}, not {number}, or another value",
                case.call,
                case.from.len(),
                case.room
            )
        });
        // each undoes the other
        if number == 0 {
            let call = if case.call == Rearrange { Restore } else { Rearrange };
            let back = Case::new("undone", call, out);
            let mut again = before;
            let answer = back.proved(&mut again);
            tally.count_in(back.kind, (answer, &again) == (0, &case.from), || format!("{call:?}: {answer}"));
        }
    }
    (tally, answers)
}

fn faults() -> ExitCode {
    let missed: Vec<&str> = FAULTS.into_iter().filter(|fault| compare(2000, 1, fault).0.differ() == 0).collect();
    println!("{} faults planted, {} not reported {missed:?}", FAULTS.len(), missed.len());
    u8::from(!missed.is_empty()).into()
}

fn list(count: u64, seed: u64) {
    let mut r = Random::new(seed);
    let cases = fixed().into_iter().step_by(9).chain(std::iter::repeat_with(|| any(&mut r)));
    for case in cases.filter(|case| case.from.len().max(case.room) <= 256).take(count as usize) {
        let mut out = vec![77; case.room];
        let number = case.own(&mut out);
        let name = if case.call == Rearrange { "rearrange" } else { "restore" };
        print!("{name} {number:x} {:x} {:x}", case.from.len(), case.room);
        for x in case.from.iter().chain(&out) {
            print!(" {x:x}");
        }
        println!();
    }
}
