//! The public calls of the proved library beside the oracle's own (`src/calls.rs`): answer, record and all six buffers after every call, bit for bit.
//!
//!     calls --compare [N [SEED]]      N lists of calls (20,000), some by `smoother_serve` too
//!     calls --faults                  plants wrong answers, one kind after another, and fails unless each is reported
//!     calls --list N SEED             N lists of calls with the oracle's answers, for replay
//!
//! A list is made on a sheet of sides up to 40, in joint mode or one channel of it, with at most a few iterations: a start on any legal record and any
//! values, then calls in any order, most of them the next of some channel. Between them stand calls on a changed copy of what is lent: a length, a quantiser, a level, a pair or a
//! field of the record, or two of them; or other legal places and values. Each list ends with a call on a record with another kept number, and one on a damaged pair of levels.
use oracle::{
    calls::{BLOWN, Channel, JOBS, Job, Lent, NAMES, Record, lent, proved, proved_serve},
    floats::{any, at, bits, bits64, same, special, subnormal},
    random::Random,
    replay::{Calls, digest, fits, line},
    sheet::lent_levels,
    tally::Tally,
    texts::legal,
};
use std::{collections::BTreeMap, process::ExitCode};

fn main() -> ExitCode {
    let args: Vec<String> = std::env::args().skip(1).collect();
    let number = |i: usize, default: u64| args.get(i).map_or(default, |a| a.parse().expect("a whole number"));
    match args.first().map(String::as_str) {
        Some("--compare") => compare(number(1, 20_000), number(2, 1)),
        Some("--faults") => faults(),
        Some("--list") => list(number(1, 500), number(2, 1)),
        _ => {
            eprintln!("calls --compare [N [SEED]] | --faults | --list N SEED");
            ExitCode::FAILURE
        }
    }
}

// ---- what is lent, at random

/// A run of a sheet at random, and what is lent for it. The buffers have values left over from something else.
fn fresh(r: &mut Random, limit: u32) -> Lent {
    let steps = r.pick(&[0, 1, 1, 2, 2, 3, 3, 3, 8]);
    let sheet = legal(r, limit, steps);
    let c = if sheet.joint { 0 } else { r.below(sheet.channels.len()) };
    let mut record = Record::of(&sheet, c);
    if record.n == 0 && !r.one_in(3) {
        record.n = r.between(1, 3) as u32;
    }
    hold(r, &mut record);
    let owns = if sheet.joint { &sheet.channels[..] } else { &sheet.channels[c..=c] };
    let (lows, highs) = lent_levels(owns);
    let mut x = Lent {
        record,
        lows,
        highs,
        tables: owns.iter().flat_map(|c| &c.table).map(|q| *q as u16).collect(),
        buffers: Default::default(),
        totals: vec![7.0; 2],
    };
    refill(r, &mut x);
    x
}

/// Held counts (M-108): of two runs in five none is held; else all, one, or any.
fn hold(r: &mut Random, record: &mut Record) {
    let (kind, one, n) = (r.below(5), r.below(3), record.n);
    for (c, own) in record.channels.iter_mut().enumerate() {
        own.held = match kind {
            0 | 1 => n,
            2 => r.pick(&[0, 0, n / 2]),
            3 if c != one => n,
            _ => r.between(0, n.into()) as u32,
        };
    }
}

type Make = fn(&mut Random) -> f32;

const VALUES: [Make; 7] = [
    |r| r.between(-128 << 16, 128 << 16) as f32 / 65536.0,
    |r| r.between(-2, 2) as f32,
    |r| if r.one_in(9) { at(r, 126) } else { at(r, 60) },
    subnormal,
    any,
    |r| if r.one_in(200) { special(r) } else { at(r, 3) },
    |_| 0.0,
];

/// Other values in all buffers.
fn refill(r: &mut Random, x: &mut Lent) {
    let make = r.pick(&VALUES);
    let all = x.record.values();
    x.buffers.iter_mut().for_each(|b| *b = (0..all).map(|_| make(r)).collect());
}

/// Other places, legal ones: "equal blends in all channels, marks only at positive multiples of 5", kept numbers only after the first project.
fn displace(r: &mut Random, x: &mut Lent) {
    let n = x.record.n;
    let blends = r.between(0, n.into()) as u32;
    // the positions with this many blends: from two before the step's end
    let (low, high) = ((5 * blends).saturating_sub(2), (5 * blends + 2).min(5 * n));
    for c in &mut x.record.channels[..x.record.count as usize] {
        c.position = r.between(low.into(), high.into()) as u32;
        c.mark = c.position > 0 && c.position % 5 == 0 && r.one_in(3);
        let most = if c.position < 5 { 0 } else { c.width * c.height };
        c.clipped = if r.one_in(4) { most } else { r.between(0, most.into()) as u32 };
    }
    assert!(x.record.is_legal());
}

// ---- calls at random

const CHANNELS: [u32; 6] = [0, 1, 2, 3, 255, u32::MAX];

/// A call that is some channel's next, where there is one, or any.
fn choose(r: &mut Random, x: &Lent, likely: usize) -> (Job, u32) {
    let record = &x.record;
    let owns = record.owns();
    if !r.one_in(likely) {
        let able = |c: u32| {
            let own = &owns[c as usize];
            let blend = own.position % 5 == 2;
            !own.mark && own.position < 5 * record.n && (!blend || owns.iter().all(|o| o.position % 5 == 2))
        };
        let next: Vec<u32> = (0..record.count).filter(|c| able(*c)).collect();
        if !next.is_empty() {
            let c = r.pick(&next);
            return (JOBS[owns[c as usize].position as usize % 5], c);
        }
    }
    (r.pick(&JOBS), if r.one_in(3) { r.pick(&CHANNELS) } else { r.below(record.count as usize) as u32 })
}

/// A change that a call may have to refuse. It may be none, for that call or at all.
fn damage(r: &mut Random, x: &mut Lent, job: Job) {
    match r.below(10) {
        0 | 1 => {
            if job == Job::Blend && r.one_in(4) {
                x.totals.resize(r.pick(&[0, 1, 3, 4]), 7.0);
                return;
            }
            let names = if r.one_in(4) { &[0, 1, 2, 3, 4, 5][..] } else { lent(job) };
            let b = r.pick(names);
            let length = other_length(r, x.buffers[b].len(), x.buffers[b].len() / 3);
            x.buffers[b].resize(length, 1.0);
        }
        2 => {
            let levels = if r.one_in(2) { &mut x.lows } else { &mut x.highs };
            let length = other_length(r, levels.len(), 64);
            levels.resize(length, 0);
        }
        3 => {
            let length = other_length(r, x.tables.len(), 64);
            x.tables.resize(length, 1);
        }
        4 if !x.tables.is_empty() => {
            let i = end_or_any(r, x.tables.len());
            x.tables[i] = r.pick(&[0, 256, 255, 257, 1 << 15, u16::MAX]);
        }
        5 if !x.lows.is_empty() && !x.highs.is_empty() => {
            let levels = if r.one_in(2) { &mut x.lows } else { &mut x.highs };
            let i = end_or_any(r, levels.len());
            levels[i] = r.pick(&[-2048, 2048, 2047, -2047, i16::MIN, i16::MAX]);
        }
        6 | 7 => damage_pairs(r, x),
        _ => damage_record(r, &mut x.record),
    }
}

/// A pair with its low above its high, and often a level beyond ±2,047 in a pair before or after it, in any channel.
fn damage_pairs(r: &mut Random, x: &mut Lent) {
    let count = x.lows.len().min(x.highs.len());
    if count == 0 {
        return;
    }
    let i = end_or_any(r, count);
    (x.lows[i], x.highs[i]) =
        r.pick(&[(2, 1), (-1, -2), (2047, -2047), (2048, 2047), (5, -2048), (i16::MAX, i16::MIN)]);
    if r.one_in(2) {
        let j = r.pick(&[i, i.saturating_sub(1), (i + 1).min(count - 1), 0, count - 1]);
        let levels = if r.one_in(2) { &mut x.lows } else { &mut x.highs };
        levels[j] = r.pick(&[2048, -2048, i16::MIN, i16::MAX]);
    }
}

fn end_or_any(r: &mut Random, n: usize) -> usize {
    let any = r.below(n);
    r.pick(&[0, n - 1, any])
}

fn other_length(r: &mut Random, n: usize, part: usize) -> usize {
    r.pick(&[0, n.saturating_sub(1), n + 1, n.saturating_sub(part), n + part, 2 * n])
}

const WEIGHTS: [u32; 10] = [
    0x8000_0000, // -0
    0xbf80_0000, // -1
    0x8000_0001,
    0x7f80_0000, // infinity
    0xff80_0000,
    0x7fc0_0000, // NaN
    0x7f80_0001,
    0xffc0_0000,
    0x7f7f_ffff, // the largest, and other legal ones
    0x0000_0001,
];

fn damage_record(r: &mut Random, record: &mut Record) {
    const SIDES: [u32; 14] = [0, 1, 4, 7, 8, 9, 12, 16, 512, 516, 520, 1 << 16, 1 << 31, u32::MAX - 7];
    let c = if r.one_in(6) { 2 } else { r.below(record.count.clamp(1, 3) as usize) };
    let own = &mut record.channels[c];
    match r.below(21) {
        0 => record.w = r.pick(&SIDES),
        1 => record.h = r.pick(&SIDES),
        2 => record.n = r.pick(&[0, 1, 2, 1000, 1001, 1 << 30, u32::MAX]),
        3 => record.smoothing = f32::from_bits(r.pick(&WEIGHTS)),
        4 => record.count = r.pick(&[0, 1, 2, 3, 4, 1 << 31, u32::MAX]),
        5 => own.width = r.pick(&SIDES),
        6 => own.height = r.pick(&SIDES),
        7 => own.across = r.pick(&[0, 1, 2, 3, 4, 5, 1 << 29, u32::MAX]),
        8 => own.down = r.pick(&[0, 1, 2, 3, 4, 5, 1 << 29, u32::MAX]),
        9 | 10 => own.weight = f32::from_bits(r.pick(&WEIGHTS)),
        11 | 12 => {
            own.position =
                r.pick(&[0, own.position.wrapping_add(5), own.position ^ 1, 5 * record.n.min(1000) + 1, u32::MAX])
        }
        13 => own.position = r.between(0, 5 * i64::from(record.n.min(1000))) as u32,
        14 | 15 => {
            let full = record.w.wrapping_mul(record.h);
            own.clipped = kept_number(r, own, full);
        }
        19 | 20 => own.held = r.pick(&[0, record.n, record.n.wrapping_add(1), record.n / 2, 1000, 1001, u32::MAX]),
        16 => record.reorder = r.pick(&[0, 1, 2, 109, 111, 1 << 8, 1 << 31, u32::MAX]),
        _ => own.mark = !own.mark,
    }
}

/// A kept number at or beyond the ends of what is legal.
fn kept_number(r: &mut Random, own: &Channel, full: u32) -> u32 {
    let most = own.width.wrapping_mul(own.height);
    r.pick(&[0, 1, most, most.wrapping_add(1), full, u32::MAX])
}

// ---- comparison

/// A wrong answer of the proved side, planted to see that it is reported.
#[derive(Clone, Copy, Debug, PartialEq)]
enum Fault {
    None,
    Answer,
    Blown,
    Position,
    Mark,
    Clipped,
    Total,
    Value,
    Sign,
    Rest,
    Refused,
    Letter,
    Held,
    ServeByte,
}

const FAULTS: [Fault; 13] = [
    Fault::Answer,
    Fault::Blown,
    Fault::Position,
    Fault::Mark,
    Fault::Clipped,
    Fault::Total,
    Fault::Value,
    Fault::Sign,
    Fault::Rest,
    Fault::Refused,
    Fault::Letter,
    Fault::Held,
    Fault::ServeByte,
];

struct Compare {
    tally: Tally,
    met: BTreeMap<String, u64>,
    calls: u64,
    fault: Fault,
    planted: u64,
}

/// The first difference of the record, and of the buffers or blend's totals.
fn difference(mine: &Lent, theirs: &Lent) -> (Option<String>, Option<String>) {
    let (numbers, others) = (mine.record.numbers(), theirs.record.numbers());
    let record = (numbers != others).then(|| format!("record {numbers:?}, proved {others:?}"));
    let mut buffers = None;
    for b in 0..6 {
        let (x, y) = (&mine.buffers[b], &theirs.buffers[b]);
        assert_eq!(x.len(), y.len());
        if let Some(i) = (0..x.len()).find(|i| !same(x[*i], y[*i])) {
            buffers = Some(format!("{} at {i}: {:08x}, proved {:08x}", NAMES[b], bits(x[i]), bits(y[i])));
            break;
        }
    }
    let bits = |x: &Lent| x.totals.iter().map(|total| bits64(*total)).collect::<Vec<_>>();
    if bits(mine) != bits(theirs) {
        buffers = buffers.or(Some(format!("totals {:016x?}, proved {:016x?}", bits(mine), bits(theirs))));
    }
    (record, buffers)
}

impl Compare {
    fn new(fault: Fault) -> Self {
        Self { tally: Tally::default(), met: BTreeMap::new(), calls: 0, fault, planted: 0 }
    }

    fn met(&mut self, what: &str) {
        match self.met.get_mut(what) {
            Some(times) => *times += 1,
            None => drop(self.met.insert(what.into(), 1)),
        }
    }

    /// A call on both sides.
    fn call(&mut self, kind: &str, mine: &mut Lent, theirs: &mut Lent, job: Job, c: u32) {
        let before = (mine.record, self.calls);
        let answer = mine.call(job, c);
        let mut other = proved(theirs, job, c);
        self.calls += 1;
        let rare = matches!(self.fault, Fault::Blown | Fault::Mark | Fault::Letter | Fault::Held);
        if self.fault != Fault::None && (rare || self.calls % 1009 > 1000) {
            self.plant(theirs, &mut other, job, c);
        }
        self.met(&format!("{kind}: {job:?} answered {answer}"));
        if matches!(answer, 0 | BLOWN) && job != Job::Start {
            self.met_held(&before.0, job, c, answer);
        }
        if job == Job::Blend && answer == 0 {
            let unlike = |name: &str, is: fn(f64) -> bool| mine.totals.iter().any(|x| is(*x)).then(|| name.to_owned());
            let odd = [unlike("infinite", f64::is_infinite), unlike("NaN", f64::is_nan)];
            odd.into_iter().flatten().for_each(|name| self.met(&format!("blends with a total that is {name}")));
        }
        let (record, buffers) = difference(mine, theirs);
        let row = format!("{kind}: {job:?}");
        let show = || format!("{job:?} of channel {c} on {:?}, call {}", before.0, before.1);
        self.tally
            .count_in(&format!("{row}, answer"), answer == other, || format!("{answer}, proved {other}: {}", show()));
        self.tally
            .count_in(&format!("{row}, record"), record.is_none(), || format!("{}: {}", record.expect("one"), show()));
        self.tally.count_in(&format!("{row}, buffers"), buffers.is_none(), || {
            format!("{}: {}", buffers.expect("one"), show())
        });
        if self.fault != Fault::None {
            *theirs = mine.clone();
        }
    }

    /// Accepted calls of a held channel, and blends with some or all held.
    fn met_held(&mut self, before: &Record, job: Job, c: u32, answer: u32) {
        let held = |own: &Channel| own.position / 5 >= own.held;
        let (number, all) = (before.owns().iter().filter(|own| held(own)).count(), before.owns().len());
        if job == Job::Blend && number > 0 {
            self.met(&format!("blends with {} of {all} channels held", number));
        } else if job != Job::Blend && held(&before.owns()[c as usize]) {
            self.met(&format!("of a held channel: {job:?} answered {answer}"));
        }
    }

    fn plant(&mut self, theirs: &mut Lent, answer: &mut u32, job: Job, c: u32) {
        let (accepted, legal) = (*answer == 0 || *answer == BLOWN, theirs.record.is_legal());
        let c = (c as usize).min(theirs.record.count.clamp(1, 3) as usize - 1);
        let value = theirs.buffers[lent(job)[0]].last_mut();
        let planted = match self.fault {
            Fault::Answer if *answer == 9 => {
                *answer = 11;
                true
            }
            Fault::Blown if *answer == BLOWN => {
                *answer = 0;
                true
            }
            Fault::Position if accepted && job != Job::Start => {
                theirs.record.channels[c].position -= 1;
                true
            }
            Fault::Mark if *answer == BLOWN => {
                theirs.record.channels[c].mark = false;
                true
            }
            Fault::Clipped if accepted && job == Job::Project => {
                theirs.record.channels[c].clipped ^= 1;
                true
            }
            Fault::Total if accepted && job == Job::Blend => {
                theirs.totals[1] = f64::from_bits(bits64(theirs.totals[1]) ^ 1);
                !theirs.totals[1].is_nan()
            }
            Fault::Value if accepted => value.filter(|x| x.is_finite()).is_some_and(|x| {
                *x = f32::from_bits(x.to_bits() ^ 1);
                true
            }),
            Fault::Sign if accepted => value.filter(|x| **x == 0.0).is_some_and(|x| {
                *x = -*x;
                true
            }),
            Fault::Rest if accepted && legal && job == Job::Project => {
                let (n, own) = (theirs.record.area(), &theirs.record.channels[c]);
                let rest = (own.width * own.height) as usize;
                rest < n && {
                    let x = &mut theirs.buffers[5][c * n + rest];
                    *x = if *x == 1.0 { 2.0 } else { 1.0 };
                    true
                }
            }
            Fault::Letter if accepted && job == Job::Start => {
                let mut other = theirs.clone();
                other.record.reorder ^= 1;
                other.call(Job::Start, 0);
                let shows = difference(&other, theirs).1.is_some();
                theirs.buffers = other.buffers;
                shows
            }
            Fault::Held if accepted && job == Job::Data => {
                let (n, own) = (theirs.record.area(), &theirs.record.channels[c]);
                let part = &mut theirs.buffers[2][c * n..(c + 1) * n];
                (own.position - 1) / 5 >= own.held && {
                    let shows = part.iter().any(|x| x.to_bits() != 0);
                    part.fill(0.0);
                    shows
                }
            }
            Fault::Refused if !accepted => value.is_some_and(|x| {
                *x = if *x == 1.0 { 2.0 } else { 1.0 };
                true
            }),
            _ => false,
        };
        self.planted += u64::from(planted);
    }

    /// Calls on a changed copy of what is lent, which is dropped afterwards.
    fn aside(&mut self, r: &mut Random, x: &Lent) {
        let mut mine = x.clone();
        if r.one_in(3) {
            refill(r, &mut mine);
            displace(r, &mut mine);
            let mut theirs = mine.clone();
            for _ in 0..r.between(1, 4) {
                let (job, c) = choose(r, &mine, 8);
                self.call("elsewhere", &mut mine, &mut theirs, job, c);
            }
            return;
        }
        let (job, c) = if r.one_in(4) { (Job::Start, 0) } else { choose(r, &mine, 3) };
        for _ in 0..r.pick(&[1, 1, 2]) {
            damage(r, &mut mine, job);
        }
        let mut theirs = mine.clone();
        self.call("changed", &mut mine, &mut theirs, job, c);
    }

    /// A call at any places with another kept number in one channel.
    fn kept(&mut self, r: &mut Random, x: &Lent) {
        let mut mine = x.clone();
        displace(r, &mut mine);
        let (c, full) = (r.below(mine.record.count as usize), mine.record.w * mine.record.h);
        let own = &mut mine.record.channels[c];
        own.clipped = kept_number(r, own, full);
        let mut theirs = mine.clone();
        let (job, c) = if r.one_in(4) { (Job::Start, 0) } else { choose(r, &mine, 3) };
        self.call("kept number", &mut mine, &mut theirs, job, c);
    }

    /// A call on levels with a damaged pair.
    fn pairs(&mut self, r: &mut Random, x: &Lent) {
        let mut mine = x.clone();
        damage_pairs(r, &mut mine);
        let mut theirs = mine.clone();
        let (job, c) = (r.pick(&[Job::Start, Job::Data, Job::Project]), r.pick(&CHANNELS));
        self.call("pairs", &mut mine, &mut theirs, job, c);
    }

    /// A start and calls in any order.
    fn list(&mut self, r: &mut Random, limit: u32) {
        let mut mine = fresh(r, limit);
        displace(r, &mut mine);
        let mut theirs = mine.clone();
        self.call("list", &mut mine, &mut theirs, Job::Start, 0);
        let jobs = 5 * mine.record.n as usize * mine.record.count as usize;
        let likely = r.pick(&[2, 6, 20]);
        for _ in 0..jobs + jobs / likely + r.below(6) {
            if r.one_in(8) {
                self.aside(r, &mine);
            }
            let (job, c) = choose(r, &mine, likely);
            self.call("list", &mut mine, &mut theirs, job, c);
        }
        self.kept(r, &mine);
        self.pairs(r, &mine);
        let ends = mine.record.owns();
        let at_end = ends.iter().all(|c| c.position == 5 * mine.record.n);
        let (marked, done) = (ends.iter().any(|c| c.mark), at_end && mine.record.n > 0);
        if marked {
            self.met("lists with a mark at the end");
        }
        if done {
            self.met("lists with all jobs done");
        }
        if ends.iter().any(|c| c.clipped > 0) {
            self.met("lists with a kept number at the end");
        }
    }

    /// The same as one call.
    fn serve(&mut self, r: &mut Random, limit: u32) {
        let mut mine = fresh(r, limit);
        displace(r, &mut mine);
        let (jobs, channels) = calls_for(r, &mine);
        let mut answers = vec![77u8; jobs.len()];
        let (mut jobs, mut channels) = (jobs, channels);
        if r.one_in(4) {
            for _ in 0..r.pick(&[1, 2]) {
                damage_lists(r, &mut mine, &mut jobs, &mut channels, &mut answers);
            }
        }
        let mut theirs = mine.clone();
        let mut others = answers.clone();
        let answer = mine.serve(&jobs, &channels, &mut answers);
        let other = proved_serve(&mut theirs, &jobs, &channels, &mut others);
        if self.fault == Fault::ServeByte && answer == 0 {
            if let Some(byte) = others.iter_mut().rfind(|byte| **byte != 0) {
                *byte = 0;
                self.planted += 1;
            }
        }
        self.met(&format!("serve answered {answer}"));
        if answer == 0 {
            for byte in &answers {
                self.met(&format!("served: {byte}"));
            }
        }
        let (record, buffers) = difference(&mine, &theirs);
        self.tally.count_in("serve, answer", answer == other, || format!("{answer}, proved {other}"));
        self.tally.count_in("serve, answers", answers == others, || format!("{answers:?}, proved {others:?}"));
        self.tally.count_in("serve, record", record.is_none(), || record.expect("one"));
        self.tally.count_in("serve, buffers", buffers.is_none(), || buffers.expect("one"));
    }
}

/// Calls for a fresh run of what is lent, chosen on a copy of it.
fn calls_for(r: &mut Random, x: &Lent) -> (Vec<u8>, Vec<u32>) {
    let mut x = x.clone();
    x.call(Job::Start, 0);
    let count = 5 * x.record.n as usize * x.record.count as usize;
    let likely = r.pick(&[2, 6, 20]);
    let (mut jobs, mut channels) = (vec![], vec![]);
    for _ in 0..r.between(0, (count + count / likely + 3) as i64) {
        let (job, c) = choose(r, &x, likely);
        x.call(job, c);
        jobs.push(JOBS.iter().position(|j| *j == job).expect("a job") as u8);
        channels.push(c);
    }
    (jobs, channels)
}

fn damage_lists(r: &mut Random, x: &mut Lent, jobs: &mut Vec<u8>, channels: &mut Vec<u32>, answers: &mut Vec<u8>) {
    match r.below(6) {
        0 => jobs.push(0),
        1 => drop(channels.pop()),
        2 => answers.push(77),
        3 if !jobs.is_empty() => {
            let i = end_or_any(r, jobs.len());
            jobs[i] = r.pick(&[5, 6, 255]);
        }
        _ => damage(r, x, Job::Start),
    }
}

fn drive(all: &mut Compare, count: u64, seed: u64) {
    let mut r = Random::new(seed);
    for i in 0..count {
        let limit = if i % 16 == 0 { 40 } else { 24 };
        all.list(&mut r, limit);
        if i % 4 == 0 {
            all.serve(&mut r, limit);
        }
    }
}

fn compare(count: u64, seed: u64) -> ExitCode {
    println!("seed {seed}, {count} lists");
    let mut all = Compare::new(Fault::None);
    drive(&mut all, count, seed);
    all.met.iter().for_each(|(what, times)| println!("{what}: {times}"));
    println!("{} calls", all.calls);
    all.tally.close()
}

/// Each fault has to be reported as often as it was planted, at least once.
fn faults() -> ExitCode {
    let mut unseen = 0;
    for fault in FAULTS {
        let mut all = Compare::new(fault);
        drive(&mut all, 1000, 1);
        let seen = all.planted > 0 && all.tally.differ() == all.planted;
        println!("{fault:?}: planted {}, reported {}", all.planted, all.tally.differ());
        unseen += u8::from(!seen);
    }
    println!("{unseen} kinds not seen");
    unseen.into()
}

/// The lines that `replay` describes.
fn list(count: u64, seed: u64) -> ExitCode {
    let mut r = Random::new(seed);
    let mut made = 0;
    while made < count {
        let most = r.pick(&[64, 64, 192, 192, 320, 640]);
        let limit = r.pick(&[8, 16, 24, 32]);
        let mut x = fresh(&mut r, limit);
        if x.lows.len() > most {
            continue;
        }
        displace(&mut r, &mut x);
        let fill = r.pick(&[0.0, 1.0, -0.0, f32::NAN]);
        x.buffers.iter_mut().for_each(|b| b.fill(fill));
        let (mut jobs, mut channels) = calls_for(&mut r, &x);
        let mut answers = vec![77u8; jobs.len()];
        if r.one_in(5) {
            damage_lists(&mut r, &mut x, &mut jobs, &mut channels, &mut answers);
            x.buffers.iter_mut().for_each(|b| b.fill(fill));
        }
        let calls = Calls { jobs: &jobs, channels: &channels, answers: answers.len() };
        if !fits(&x, &calls) {
            continue;
        }
        let before = x.clone();
        let answer = x.serve(&jobs, &channels, &mut answers);
        println!("{}", line(digest(answer, &answers, &x.record, &x.buffers), fill, &before, &calls));
        made += 1;
    }
    ExitCode::SUCCESS
}
