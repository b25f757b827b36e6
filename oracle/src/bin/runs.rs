//! Runs of small sheets for replay by `replay_calls`. Answers, positions, marks and buffers are those of the trace of the published Rust (`src/run.rs`);
//! the oracle's own model of the calls has to agree.
//!
//!     runs [N [SEED]]     the sheets of SHEETS and FORMS, and some with `A o` or with ranges, call by call: a line for each call, that of the list which ends with it;
//!                         lists that are refused whole; and the whole runs of N sheets (60) of one block, up to 20 steps
//!
//! After its last step each run has calls that are refused: 10 where a channel is marked, 11, 9 and 12.
use oracle::{
    calls::{BLOWN, JOBS, Job, Lent, Record},
    jobs::Buffers,
    random::Random,
    replay::{Calls, digest, fits, line},
    run::{Run, runs},
    sheet::{Channel, Reorder, SMOOTH, Sheet, Weight, lent_levels, read},
    texts::{WEIGHTS, example},
};

/// A channel's own sides, factors, largest quantiser, and largest level either way; one level in `zeros` is other than 0.
struct Own([u32; 4], u32, u32, usize);

/// Full sides, steps, joint or not, the smoothing and the data weights, channels.
type Form = ([u32; 2], u32, bool, [f32; 3], [f32; 3], &'static [Own]);

/// 2^127.
const HUGE: f32 = f32::from_bits(0x7f00_0000);

/// Resampling by sides, with places that no own pixel covers; three channels, of which one has a factor and one covers a part.
const SHEETS: [&str; 2] = [include_str!("../../sheets/Twice16.tsv"), include_str!("../../sheets/JointWide.tsv")];

const FORMS: [Form; 10] = [
    // two and three lines of blocks
    ([16, 16], 2, true, [0.6; 3], [0.02; 3], &[Own([16, 16, 1, 1], 9, 30, 4)]),
    ([8, 24], 1, true, [1.5; 3], [0.0; 3], &[Own([8, 24, 1, 1], 255, 5, 3)]),
    // factors across, down and both, with several lines of blocks
    ([24, 16], 2, true, [0.01; 3], [0.001; 3], &[Own([8, 16, 2, 1], 24, 20, 3)]),
    ([8, 32], 2, true, [0.3; 3], [0.1; 3], &[Own([8, 16, 1, 2], 40, 9, 3)]),
    ([24, 24], 1, true, [0.7; 3], [0.3; 3], &[Own([8, 8, 3, 3], 24, 60, 2)]),
    ([8, 32], 1, true, [0.7; 3], [0.3; 3], &[Own([8, 8, 1, 4], 3, 600, 2)]),
    // the largest levels and quantisers
    ([16, 16], 1, true, [1.0; 3], [1.0; 3], &[Own([8, 16, 2, 1], 255, 2047, 1)]),
    // three channels, joint
    (
        [16, 16],
        2,
        true,
        [0.9; 3],
        [0.1, 0.0, 0.5],
        &[Own([16, 16, 1, 1], 24, 9, 5), Own([8, 8, 2, 2], 24, 9, 2), Own([16, 8, 1, 2], 99, 4, 3)],
    ),
    // three channels, separate
    (
        [16, 16],
        1,
        false,
        [0.9, 0.0, 2.0],
        [0.1, 7.0, 7.0],
        &[Own([8, 16, 1, 1], 24, 9, 5), Own([8, 8, 2, 2], 24, 9, 2), Own([16, 8, 1, 2], 99, 4, 3)],
    ),
    // channel 1 is blown in step 1 of 2
    (
        [8, 16],
        2,
        true,
        [1.0; 3],
        [0.5, HUGE, 0.0],
        &[Own([8, 16, 1, 1], 24, 9, 4), Own([8, 8, 1, 2], 24, 9, 2), Own([8, 8, 1, 1], 24, 9, 2)],
    ),
];

fn sheet(r: &mut Random, ([w, h], steps, joint, smoothing, data, owns): &Form) -> Sheet {
    let weights = |xs: &[f32; 3]| xs.map(|x| Weight::Bits(x.to_bits()));
    let channel = |&Own([w, h, across, down], top, most, zeros): &Own| Channel {
        w,
        h,
        across,
        down,
        table: (0..64).map(|_| r.between(1, top.into()) as u32).collect(),
        levels: (0..w * h)
            .map(|_| if r.one_in(zeros) { r.between(-i64::from(most), most.into()) as i32 } else { 0 })
            .collect(),
    };
    Sheet {
        w: *w,
        h: *h,
        picture_w: *w,
        picture_h: *h,
        joint: *joint,
        counts: [*steps; 3],
        smoothing: weights(smoothing),
        data: weights(data),
        rounding: None,
        reorder: None,
        hold: None,
        marks: vec![],
        channels: owns.iter().map(channel).collect(),
    }
}

/// What is lent for the run that `runs` has at place `c`, all values being `fill`.
fn lent(sheet: &Sheet, c: usize, fill: f32) -> Lent {
    let record = Record::of(sheet, c);
    let owns = if sheet.joint { &sheet.channels[..] } else { &sheet.channels[c..=c] };
    let (lows, highs) = lent_levels(owns);
    Lent {
        record,
        lows,
        highs,
        tables: owns.iter().flat_map(|c| &c.table).map(|q| *q as u16).collect(),
        buffers: [0; 6].map(|_| vec![fill; record.values()]),
        totals: vec![0.0; 2],
    }
}

/// The record and the buffers that the trace has now.
fn traced(run: &Run, mut record: Record) -> (Record, Buffers) {
    let mut buffers = Buffers::default();
    for c in 0..run.channels() {
        let own = &mut record.channels[c];
        (own.position, own.mark, own.clipped) = (run.positions[c] as u32, run.marks[c], run.clipped[c]);
        for (all, (_, values)) in buffers.iter_mut().zip(run.buffers(c)) {
            all.extend(values);
        }
    }
    (record, buffers)
}

/// A list as it grows, with what it leaves.
struct List {
    fill: f32,
    before: Lent,
    jobs: Vec<u8>,
    channels: Vec<u32>,
    answers: Vec<u8>,
}

impl List {
    fn add(&mut self, job: Job, c: u32, answer: u32) {
        self.jobs.push(JOBS.iter().position(|j| *j == job).expect("a job") as u8);
        self.channels.push(c);
        self.answers.push(answer as u8);
    }

    /// Prints the line of the list so far.
    fn print(&self, record: &Record, buffers: &Buffers) {
        let calls = Calls { jobs: &self.jobs, channels: &self.channels, answers: self.answers.len() };
        assert!(fits(&self.before, &calls));
        let due = digest(0, &self.answers, record, buffers);
        let (mut model, mut answers) = (self.before.clone(), vec![77; self.answers.len()]);
        let answer = model.serve(&self.jobs, &self.channels, &mut answers);
        assert_eq!(
            digest(answer, &answers, &model.record, &model.buffers),
            due,
            "the model of the calls and the trace"
        );
        println!("{}", line(due, self.fill, &self.before, &calls));
    }
}

/// Prints the run's lists, each one call longer, or only the whole one.
fn walk(mut run: Run, before: Lent, fill: f32, each: bool) {
    let at_start = before.record;
    let mut list = List { fill, before, jobs: vec![], channels: vec![], answers: vec![] };
    let show = |list: &List, run: &Run| {
        if each {
            let (record, buffers) = traced(run, at_start);
            list.print(&record, &buffers);
        }
    };
    show(&list, &run);
    while !run.is_done() && !run.is_blown() {
        run.step(|run, job, c| {
            let number = ["push", "data", "blend", "move", "project"].iter().position(|name| *name == job);
            let job = JOBS[number.expect("a job")];
            if job == Job::Blend && c > 0 {
                return; // it was for all channels
            }
            list.add(job, c as u32, if job == Job::Project && run.marks[c] { BLOWN } else { 0 });
            show(&list, run);
        });
    }
    // refused: a marked channel 10, one at its end 11, any other 9; no such channel 12
    let (record, buffers) = traced(&run, at_start);
    for c in 0..record.count {
        let own = &record.channels[c as usize];
        let due = if own.mark {
            10
        } else if own.position == 5 * record.n {
            11
        } else {
            9
        };
        [Job::Data, Job::Project].into_iter().for_each(|job| list.add(job, c, due));
    }
    list.add(Job::Blend, 0, if run.is_blown() { 10 } else { 11 });
    list.add(Job::Push, record.count, 12);
    list.print(&record, &buffers);
}

/// Lists that are refused whole, with nothing changed: 5 for a level beyond ±2,047, the least of all among them, 14 for a low above its high, 4 for a quantiser.
fn refused(before: &Lent, fill: f32) {
    let show = |due: u32, x: Lent| {
        let calls = Calls { jobs: &[0], channels: &[0], answers: 1 };
        assert_eq!(x.clone().serve(calls.jobs, calls.channels, &mut [77]), due);
        println!("{}", line(digest(due, &[77], &x.record, &x.buffers), fill, &x, &calls));
    };
    let last = before.lows.len() - 1;
    for at in [0, last] {
        for level in [i16::MIN, -2048, 2048, i16::MAX] {
            let mut x = before.clone();
            (if level < 0 { &mut x.lows } else { &mut x.highs })[at] = level;
            show(5, x);
        }
    }
    // pairs are judged one after the other, 5 before 14 on each
    for (first, second, due) in [
        ((2, 1), (0, 0), 14),
        ((0, 0), (2, 1), 14),
        ((2, 1), (2048, 2048), 14),
        ((2048, 2047), (2, 1), 5),
        ((5, -2048), (2, 1), 5),
    ] {
        let mut x = before.clone();
        (x.lows[0], x.highs[0]) = first;
        (x.lows[last], x.highs[last]) = second;
        show(due, x);
    }
    for at in [0, before.tables.len() - 1] {
        for quantiser in [0, 256, u16::MAX] {
            let mut x = before.clone();
            (x.lows[0], x.tables[at]) = (i16::MIN, quantiser);
            show(4, x);
        }
    }
}

/// Document 01's start of 16 by 8 with either letter of line `A`; then two lines of blocks, and three channels apart, with `o`.
fn reordered(sheets: &[Sheet]) -> Vec<Sheet> {
    let mut wide = read(&example(), SMOOTH).expect("legal");
    (wide.w, wide.channels[0].w) = (16, 16);
    wide.channels[0].levels = [1].into_iter().chain([0; 127]).collect();
    let with = |sheet: &Sheet, letter| Sheet { reorder: Some(letter), ..sheet.clone() };
    let lines = sheets.iter().find(|sheet| sheet.channels[0].w > 8 && sheet.channels[0].h > 8).expect("one of FORMS");
    let apart = sheets.iter().find(|sheet| !sheet.joint).expect("one of FORMS");
    vec![with(&wide, Reorder::Each), with(&wide, Reorder::Once), with(lines, Reorder::Once), with(apart, Reorder::Once)]
}

/// Levels within ranges, of one channel with factors and of three channels, some blocks with equal pairs; with start as in document 01 and reordered once.
fn ranged(r: &mut Random, sheets: &[Sheet]) -> Vec<Sheet> {
    let mut wider = |sheet: &Sheet, reorder| {
        let mut sheet = Sheet { reorder: Some(reorder), counts: [1; 3], ..sheet.clone() };
        for levels in sheet.channels.iter_mut().map(|c| &mut c.levels) {
            for k in 0..levels.lows.len() {
                if k / 64 % 3 != 1 && r.one_in(2) {
                    levels.lows[k] = (levels.lows[k] - r.between(0, 6) as i32).max(-2047);
                    levels.highs[k] = (levels.highs[k] + r.between(0, 6) as i32).min(2047);
                }
            }
        }
        sheet
    };
    let factors = sheets.iter().find(|sheet| sheet.channels[0].across == 2).expect("one of FORMS");
    let joint =
        sheets.iter().rfind(|sheet| sheet.joint && sheet.channels.len() == 3 && sheet.w > 8).expect("one of FORMS");
    vec![wider(factors, Reorder::Each), wider(joint, Reorder::Once)]
}

/// Channels that are held (M-108): one after a step of two, at its start, and all three at different steps; one of three apart.
fn held(sheets: &[Sheet]) -> Vec<Sheet> {
    let with = |sheet: &Sheet, counts| Sheet { hold: Some(counts), ..sheet.clone() };
    let one = sheets.iter().find(|sheet| sheet.channels.len() == 1 && sheet.counts[0] == 2).expect("one of FORMS");
    let joint =
        sheets.iter().find(|sheet| sheet.joint && sheet.channels.len() == 3 && sheet.counts[0] == 2 && sheet.w > 8);
    let joint = joint.expect("one of FORMS");
    let apart = sheets.iter().find(|sheet| !sheet.joint).expect("one of FORMS");
    vec![
        with(one, [1, 2, 2]),
        with(one, [0, 2, 2]),
        with(joint, [2, 1, 0]),
        with(joint, [1, 1, 1]),
        with(apart, [1, 0, 1]),
    ]
}

/// One block, large and small levels and quantisers, and weights at the ends of what is legal.
fn block(r: &mut Random, i: usize) -> Sheet {
    let most = 2047 >> (i % 11);
    let levels = (0..64).map(|_| if r.one_in(3) { r.between(-most, most) as i32 } else { 0 }).collect();
    let table = (0..64).map(|_| r.between(1, 255 >> (i % 7)) as u32).collect();
    Sheet {
        w: 8,
        h: 8,
        picture_w: 8,
        picture_h: 8,
        joint: true,
        counts: [r.between(1, 20) as u32; 3],
        smoothing: [r.pick(&WEIGHTS); 3],
        data: [r.pick(&WEIGHTS); 3],
        rounding: None,
        reorder: None,
        hold: None,
        marks: vec![],
        channels: vec![Channel { w: 8, h: 8, across: 1, down: 1, table, levels }],
    }
}

fn main() {
    let number =
        |i: usize, default: u64| std::env::args().nth(i).map_or(default, |a| a.parse().expect("a whole number"));
    let mut r = Random::new(number(2, 1));
    let fills = [0.0, f32::NAN, -0.0, 1.0];
    let fixed = SHEETS.iter().map(|text| read(text.as_bytes(), SMOOTH).expect("a legal sheet"));
    let mut sheets: Vec<Sheet> = fixed.chain(FORMS.iter().map(|form| sheet(&mut r, form))).collect();
    sheets.extend(reordered(&sheets));
    sheets.extend(ranged(&mut r, &sheets));
    sheets.extend(held(&sheets));
    for (sheet, fill) in sheets.iter().zip(fills.into_iter().cycle()) {
        for (c, run) in runs(sheet).into_iter().enumerate() {
            walk(run, lent(sheet, c, fill), fill, true);
        }
    }
    refused(&lent(&sheets[5], 0, 1.0), 1.0);
    for (i, fill) in (0..number(1, 60) as usize).zip(fills.into_iter().cycle()) {
        let sheet = block(&mut r, i);
        walk(runs(&sheet).remove(0), lent(&sheet, 0, fill), fill, false);
    }
}
