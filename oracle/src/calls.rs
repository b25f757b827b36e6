//! The public calls on a run, written from document 01, "Sheet records" and "Jobs and positions": the record, what each call refuses, and jobs done by
//! the published functions. Nothing here is taken from the proved calls; `proved` and `proved_serve` call those.
use crate::{
    floats::bits,
    jobs::Buffers,
    probe::{ffi::lend, *},
    run::Run,
    sheet::{self, Levels, Reorder, Sheet},
};

/// A channel of the run, as the library declares it.
#[repr(C)]
#[derive(Clone, Copy, Debug)]
pub struct Channel {
    pub width: u32,
    pub height: u32,
    pub across: u32,
    pub down: u32,
    pub weight: f32,
    /// After how many steps it is held (M-108).
    pub held: u32,
    pub position: u32,
    pub mark: bool,
    /// How many coefficients the last project moved.
    pub clipped: u32,
}

/// The run's record; its channels are the first `count`.
#[repr(C)]
#[derive(Clone, Copy, Debug)]
pub struct Record {
    pub w: u32,
    pub h: u32,
    pub n: u32,
    pub smoothing: f32,
    /// The letter of line `A`: 0 for `m`, 1 for `o`.
    pub reorder: u32,
    pub count: u32,
    pub channels: [Channel; 3],
}

pub const NO_CHANNEL: Channel =
    Channel { width: 0, height: 0, across: 0, down: 0, weight: 0.0, held: 0, position: 0, mark: false, clipped: 0 };

#[derive(Clone, Copy, Debug, PartialEq)]
pub enum Job {
    Start,
    Push,
    Data,
    Blend,
    Move,
    Project,
}

use Job::{Blend, Data, Move, Project, Push, Start};

/// "Its remainder modulo 5 gives the next job, 0 push to 4 project."
pub const JOBS: [Job; 5] = [Push, Data, Blend, Move, Project];

/// Accepted, and the channel is now marked blown.
pub const BLOWN: u32 = 255;

/// Names of the buffers, and their numbers.
pub const NAMES: [&str; 6] = ["plane", "prior", "gradient", "across", "down", "saved"];
const PLANE: usize = 0;
const PRIOR: usize = 1;
const GRADIENT: usize = 2;
const ACROSS: usize = 3;
const DOWN: usize = 4;
const SAVED: usize = 5;

/// The buffers that a call "reads or writes".
pub fn lent(job: Job) -> &'static [usize] {
    match job {
        Start => &[PLANE, PRIOR, GRADIENT, ACROSS, DOWN, SAVED],
        Push => &[PLANE, PRIOR],
        Data => &[GRADIENT, SAVED],
        Blend => &[PLANE, GRADIENT, ACROSS, DOWN],
        Move => &[PLANE, GRADIENT],
        Project => &[PLANE, ACROSS, DOWN, SAVED],
    }
}

/// "Start, data and project are lent levels and tables."
pub fn lent_levels(job: Job) -> bool {
    matches!(job, Start | Data | Project)
}

/// Blends among a channel's first `position` jobs.
fn blends(position: u32) -> u32 {
    position / 5 + u32::from(position % 5 > 2)
}

fn weight_ok(weight: f32) -> bool {
    weight.is_finite() && !weight.is_sign_negative()
}

impl Record {
    /// The record of the run that `run::runs` has at place `c`, at position 0.
    pub fn of(sheet: &Sheet, c: usize) -> Self {
        let own = |(c, weight): (usize, sheet::Weight)| Channel {
            width: sheet.channels[c].w,
            height: sheet.channels[c].h,
            across: sheet.channels[c].across,
            down: sheet.channels[c].down,
            weight: weight.value(),
            held: sheet.holds()[c],
            ..NO_CHANNEL
        };
        let owns: Vec<Channel> = if sheet.joint {
            sheet.data.into_iter().enumerate().take(sheet.channels.len()).map(own).collect()
        } else {
            vec![own((c, sheet.data[0]))]
        };
        Self {
            w: sheet.w,
            h: sheet.h,
            n: sheet.counts[c],
            smoothing: sheet.smoothing[c].value(),
            reorder: u32::from(sheet.reorders() == Reorder::Once),
            count: owns.len() as u32,
            channels: std::array::from_fn(|c| owns.get(c).copied().unwrap_or(NO_CHANNEL)),
        }
    }

    pub fn numbers(&self) -> Vec<u32> {
        let channel = |c: &Channel| {
            [c.width, c.height, c.across, c.down, bits(c.weight), c.held, c.position, u32::from(c.mark), c.clipped]
        };
        let first = [self.w, self.h, self.n, bits(self.smoothing), self.reorder, self.count];
        first.into_iter().chain(self.channels.iter().flat_map(channel)).collect()
    }

    /// The channels of the run. The record is legal.
    pub fn owns(&self) -> &[Channel] {
        &self.channels[..self.count as usize]
    }

    fn owns_mut(&mut self) -> &mut [Channel] {
        &mut self.channels[..self.count as usize]
    }

    /// "Legal records: numbers within the sheet's rules, equal blends in all channels, marks only at positive multiples of 5." "A kept number above w × h, or
    /// not 0 before the first project, is 13" (M-104), and so is a held count above the iterations (M-108).
    pub fn is_legal(&self) -> bool {
        let full = |side: u32| side % 8 == 0 && (8..=512).contains(&side);
        if !full(self.w) || !full(self.h) || self.n > 1000 || !weight_ok(self.smoothing) || self.reorder > 1 {
            return false;
        }
        if self.count != 1 && self.count != 3 {
            return false;
        }
        let last = 5 * self.n;
        self.owns().iter().all(|c| {
            let covers = |own: u32, factor: u32, full: u32| {
                own % 8 == 0
                    && own >= 8
                    && (1..=4).contains(&factor)
                    && u64::from(own) * u64::from(factor) <= full.into()
            };
            covers(c.width, c.across, self.w)
                && covers(c.height, c.down, self.h)
                && weight_ok(c.weight)
                && c.held <= self.n
                && c.position <= last
                && (!c.mark || c.position > 0 && c.position % 5 == 0)
                && c.clipped <= c.width * c.height
                && (c.clipped == 0 || c.position >= 5)
                && blends(c.position) == blends(self.channels[0].position)
        })
    }

    pub fn area(&self) -> usize {
        self.w as usize * self.h as usize
    }

    fn own_count(&self, c: usize) -> usize {
        self.channels[c].width as usize * self.channels[c].height as usize
    }

    pub fn levels(&self) -> usize {
        (0..self.count as usize).map(|c| self.own_count(c)).sum()
    }

    pub fn tables(&self) -> usize {
        64 * self.count as usize
    }

    pub fn values(&self) -> usize {
        self.count as usize * self.area()
    }
}

/// What a caller has: the record, and what it lends.
#[derive(Clone)]
pub struct Lent {
    pub record: Record,
    /// "Levels are from now on lent as lows and highs, two buffers of the old length each" (M-105).
    pub lows: Vec<i16>,
    pub highs: Vec<i16>,
    pub tables: Vec<u16>,
    pub buffers: Buffers,
    /// Two places for the totals that blend returns (M-103).
    pub totals: Vec<f64>,
}

impl Lent {
    /// "14 "range", low above high, checked after 5 on the same pair and before the next pair, in the text and in the calls alike": 0 for none.
    fn levels_fault(&self) -> u32 {
        let legal = |level: i16| (-2047..=2047).contains(&level);
        let fault = |(low, high): (&i16, &i16)| match (legal(*low) && legal(*high), low <= high) {
            (false, _) => Some(5),
            (_, false) => Some(14),
            _ => None,
        };
        self.lows.iter().zip(&self.highs).find_map(fault).unwrap_or(0)
    }

    /// The first refusal of 13, 8, 4, then pair by pair 5 and 14, then 12, 10, 11, 9 that applies; 0 for none.
    pub fn refusal(&self, job: Job, c: u32) -> u32 {
        let r = &self.record;
        if !r.is_legal() {
            return 13;
        }
        if lent(job).iter().any(|b| self.buffers[*b].len() != r.values()) {
            return 8;
        }
        if job == Blend && self.totals.len() != 2 {
            return 8;
        }
        if lent_levels(job) {
            if !self.is_fed() {
                return 8;
            }
            if self.tables.iter().any(|q| !(1..=255).contains(q)) {
                return 4;
            }
            let fault = self.levels_fault();
            if fault != 0 {
                return fault;
            }
        }
        if job == Start {
            return 0;
        }
        let turn = JOBS.iter().position(|j| *j == job).expect("one of the five") as u32;
        let asked = match job {
            Blend => r.owns(),
            _ if c < r.count => &r.channels[c as usize..][..1],
            _ => return 12,
        };
        if asked.iter().any(|c| c.mark) {
            return 10;
        }
        if asked.iter().any(|c| c.position == 5 * r.n) {
            return 11;
        }
        if asked.iter().any(|c| c.position % 5 != turn) {
            return 9;
        }
        0
    }

    /// The call: its answer, with the record and the buffers as it leaves them. A refusal leaves all as it was.
    pub fn call(&mut self, job: Job, c: u32) -> u32 {
        let refusal = self.refusal(job, c);
        if refusal != 0 {
            return refusal;
        }
        if job == Start {
            self.start();
            return 0;
        }
        let c = if job == Blend { 0 } else { c as usize };
        let mut run = self.run();
        let k = run.constants_of(self.record.channels[c].position as usize / 5);
        match job {
            Push => run.push(c, k.factor),
            Data => run.data(c),
            Blend => {
                run.blend(k.second_order_weight);
                self.totals.copy_from_slice(&run.totals);
            }
            Move => run.move_plane(c, k.step_size),
            _ => run.project(c),
        }
        let all = 0..self.record.count as usize;
        for c in if job == Blend { all } else { c..c + 1 } {
            self.keep(&run, c);
            self.record.channels[c].position += 1;
        }
        if job == Project {
            let own = &mut self.record.channels[c];
            (own.mark, own.clipped) = (run.marks[c], run.clipped[c]);
            return if own.mark { BLOWN } else { 0 };
        }
        0
    }

    fn coefficients(&self) -> Vec<sheet::Channel> {
        let mut from = 0;
        let channel = |(c, table): (&Channel, &[u16])| {
            let own = from..from + (c.width * c.height) as usize;
            from = own.end;
            let part = |levels: &[i16]| levels[own.clone()].iter().map(|d| (*d).into()).collect();
            sheet::Channel {
                w: c.width,
                h: c.height,
                across: c.across,
                down: c.down,
                table: table.iter().map(|q| (*q).into()).collect(),
                levels: Levels::of(part(&self.lows), part(&self.highs)),
            }
        };
        self.record.owns().iter().zip(self.tables.chunks(64)).map(channel).collect()
    }

    /// Push, blend and move are not lent levels and tables: whatever stands there, they read none.
    fn is_fed(&self) -> bool {
        let (levels, tables) = (self.record.levels(), self.record.tables());
        self.lows.len() == levels && self.highs.len() == levels && self.tables.len() == tables
    }

    /// The published run of this record on these buffers. A buffer of another length, which the job is not lent, is taken as zeros.
    fn run(&self) -> Run {
        let (r, n) = (&self.record, self.record.area());
        let fed = if self.is_fed() {
            self.clone_fed()
        } else {
            let levels = vec![0; r.levels()];
            Self { lows: levels.clone(), highs: levels, tables: vec![1; r.tables()], ..self.clone_fed() }
        };
        let part = |b: usize, c: usize| -> Vec<f32> {
            let whole = self.buffers[b].len() == r.values();
            if whole { self.buffers[b][c * n..(c + 1) * n].to_vec() } else { vec![0.0; n] }
        };
        let weights = std::array::from_fn(|c| r.channels[c].weight);
        let parts = (0..r.count as usize).map(|c| std::array::from_fn(|b| part(b, c))).collect();
        let mut run = Run::on(r.w, r.h, r.n as usize, fed.coefficients(), r.smoothing, weights, parts);
        run.positions = r.owns().iter().map(|c| c.position as usize).collect();
        run.holds = r.owns().iter().map(|c| c.held as usize).collect();
        run.clipped = r.owns().iter().map(|c| c.clipped).collect();
        run
    }

    fn clone_fed(&self) -> Self {
        Self {
            record: self.record,
            lows: self.lows.clone(),
            highs: self.highs.clone(),
            tables: self.tables.clone(),
            buffers: Buffers::default(),
            totals: vec![],
        }
    }

    /// Channel c's part of each buffer that has its length. "Saved is defined over its first w × h places": the rest stays.
    fn keep(&mut self, run: &Run, c: usize) {
        let (n, own, all) = (self.record.area(), self.record.own_count(c), self.record.values());
        for (b, (_, values)) in run.buffers(c).iter().enumerate() {
            let length = if b == SAVED { own } else { n };
            if self.buffers[b].len() == all {
                self.buffers[b][c * n..][..length].copy_from_slice(&values[..length]);
            }
        }
    }

    /// "Plane and prior are the upsampled start, saved coefficients are level × quantiser, other values 0. Start .. sets positions to 0 and
    /// clears marks." The kept numbers are "0 after start".
    fn start(&mut self) {
        let r = self.record;
        let sheet = Sheet {
            w: r.w,
            h: r.h,
            picture_w: 1,
            picture_h: 1,
            joint: true,
            counts: [r.n; 3],
            smoothing: [sheet::Weight::Bits(r.smoothing.to_bits()); 3],
            data: std::array::from_fn(|c| sheet::Weight::Bits(r.channels[c].weight.to_bits())),
            rounding: None,
            reorder: Some(if r.reorder == 1 { Reorder::Once } else { Reorder::Each }),
            hold: None,
            marks: vec![],
            channels: self.coefficients(),
        };
        let run = crate::run::runs(&sheet).remove(0);
        self.buffers[SAVED].fill(0.0);
        (0..r.count as usize).for_each(|c| self.keep(&run, c));
        self.record.owns_mut().iter_mut().for_each(|c| (c.position, c.mark, c.clipped) = (0, false, 0));
    }

    /// A fresh run and a list of calls on it, each by its job's number and a channel: the answers' bytes go to `answers`. All is refused with nothing
    /// changed where start refuses, where the three lists are not of one length (8, after 13), or where a number is no job (9, last).
    pub fn serve(&mut self, jobs: &[u8], channels: &[u32], answers: &mut [u8]) -> u32 {
        let start = self.refusal(Start, 0);
        if start == 13 {
            return 13;
        }
        if jobs.len() != channels.len() || jobs.len() != answers.len() {
            return 8;
        }
        if start != 0 {
            return start;
        }
        if jobs.iter().any(|job| *job > 4) {
            return 9;
        }
        self.start();
        // a list of calls is lent no room for totals: its blends give theirs to nobody
        let totals = std::mem::replace(&mut self.totals, vec![0.0; 2]);
        for (i, answer) in answers.iter_mut().enumerate() {
            *answer = self.call(JOBS[jobs[i] as usize], channels[i]) as u8;
        }
        self.totals = totals;
        0
    }
}

/// The proved call, by the library.
pub fn proved(x: &mut Lent, job: Job, c: u32) -> u32 {
    let Lent { record: run, lows, highs, tables, buffers: [plane, prior, gradient, across, down, saved], totals } = x;
    unsafe {
        match job {
            Start => lend!(smoother_start(
                run, read lows, read highs, read tables, write plane, write prior, write gradient, write across, write down,
                write saved
            )),
            Push => lend!(smoother_push(run, c, write plane, write prior)),
            Data => lend!(smoother_data(run, c, read lows, read highs, read tables, write gradient, read saved)),
            Blend => lend!(smoother_blend(run, read plane, write gradient, write across, write down, write totals)),
            Move => lend!(smoother_move(run, c, write plane, read gradient)),
            Project => lend!(smoother_project(
                run, c, read lows, read highs, read tables, write plane, write across, write down, write saved
            )),
        }
    }
}

/// The proved list of calls, by the library.
pub fn proved_serve(x: &mut Lent, jobs: &[u8], channels: &[u32], answers: &mut [u8]) -> u32 {
    let Lent { record: run, lows, highs, tables, buffers: [plane, prior, gradient, across, down, saved], .. } = x;
    unsafe {
        lend!(smoother_serve(
            run, read jobs, read channels, write answers, read lows, read highs, read tables, write plane, write prior,
            write gradient, write across, write down, write saved
        ))
    }
}

#[cfg(test)]
mod tests {
    use super::*;
    use crate::{random::Random, run::runs, texts::legal};

    /// A run by calls has the buffers of `run`, which are held against the published `solve`.
    #[test]
    fn calls_in_order() {
        let mut r = Random::new(1);
        for _ in 0..100 {
            let sheet = Sheet { joint: true, ..legal(&mut r, 32, 3) }.held_within();
            let mut run = runs(&sheet).remove(0);
            let mut x = fresh(&sheet);
            assert_eq!(x.call(Start, 0), 0);
            while !run.is_done() {
                let mut asked = vec![];
                run.step(|_, job, c| asked.push((job.to_owned(), c)));
                if run.is_blown() {
                    break;
                }
                for (job, c) in asked {
                    let job = ["push", "data", "blend", "move", "project"].iter().position(|name| *name == job);
                    let job = JOBS[job.expect("a job")];
                    if job != Blend || c == 0 {
                        assert_eq!(x.call(job, c as u32), 0);
                    }
                }
                for c in 0..run.channels() {
                    for (b, (_, values)) in run.buffers(c).iter().enumerate() {
                        let part = &x.buffers[b][c * x.record.area()..][..x.record.area()];
                        assert!(values.iter().zip(part).all(|(x, y)| bits(*x) == bits(*y)));
                    }
                }
            }
        }
    }

    fn fresh(sheet: &Sheet) -> Lent {
        let record = Record::of(sheet, 0);
        let (lows, highs) = sheet::lent_levels(&sheet.channels);
        Lent {
            record,
            lows,
            highs,
            tables: sheet.channels.iter().flat_map(|c| &c.table).map(|q| *q as u16).collect(),
            buffers: [0; 6].map(|_| vec![f32::NAN; record.values()]),
            totals: vec![0.0; 2],
        }
    }

    /// Document 01's table, in its order.
    #[test]
    fn refusals() {
        let mut r = Random::new(2);
        let sheet = loop {
            let sheet = Sheet { joint: true, counts: [1; 3], hold: None, ..legal(&mut r, 16, 1) };
            if sheet.channels.len() == 3 {
                break sheet;
            }
        };
        let mut x = fresh(&sheet);
        x.record.smoothing = -0.0;
        x.buffers[0].pop();
        x.tables[0] = 256;
        x.lows[0] = -2048;
        assert_eq!(x.call(Project, 3), 13);
        x.record.smoothing = 0.0;
        assert_eq!(x.call(Project, 3), 8);
        assert_eq!(x.call(Data, 3), 4, "data is not lent the plane");
        x.buffers[0].push(0.0);
        assert_eq!(x.call(Project, 3), 4);
        x.tables[0] = 255;
        let last = x.lows.len() - 1;
        (x.lows[last], x.highs[last]) = (2, 1);
        assert_eq!(x.call(Project, 3), 5, "5 of the first pair before 14 of the last channel's");
        (x.lows[0], x.highs[0]) = (2, 1);
        x.highs[last] = 2048;
        assert_eq!(x.call(Project, 3), 14, "14 of the first pair before 5 of the last channel's");
        (x.lows[0], x.highs[0], x.highs[last]) = (-2047, 2047, 2);
        assert_eq!(x.call(Project, 3), 12);
        let high = x.highs.pop().expect("a level");
        assert_eq!(x.call(Project, 3), 8);
        x.highs.push(high);
        assert_eq!(x.call(Project, 2), 9);
        x.record.channels.iter_mut().for_each(|c| c.position = 5);
        assert_eq!(x.call(Project, 2), 11);
        x.record.channels[2].mark = true;
        assert_eq!(x.call(Project, 2), 10);
        assert_eq!(x.call(Project, 1), 11);
        assert_eq!(x.call(Blend, 9), 10, "blend names no channel");
        x.record.channels[2].position = 2;
        assert_eq!(x.call(Push, 0), 13, "a mark at 2");
        x.record.channels[2].mark = false;
        assert_eq!(x.call(Push, 0), 13, "no blend of step 1");
        x.record.channels[2].position = 3;
        assert_eq!(x.call(Blend, 0), 11);
        let most = x.record.channels[1].width * x.record.channels[1].height;
        x.record.channels.iter_mut().for_each(|c| c.position = 5);
        x.record.channels[1].clipped = most + 1;
        assert_eq!(x.call(Blend, 0), 13, "more than w x h");
        x.record.channels[1].clipped = most;
        assert_eq!(x.call(Blend, 0), 11);
        x.record.channels.iter_mut().for_each(|c| c.position = 4);
        assert_eq!(x.call(Project, 1), 13, "kept before the first project");
        x.record.channels[1].position = 5;
        assert_eq!(x.call(Project, 1), 11);
        x.record.channels[2].held = 2;
        assert_eq!(x.call(Project, 1), 13, "held after more steps than the run has");
        x.record.channels[2].held = 0;
        assert_eq!(x.call(Project, 1), 11);
        assert_eq!(x.call(Start, 0), 0);
        assert!(x.record.channels.iter().all(|c| c.position == 0 && c.clipped == 0));
    }

    /// The calls of a held channel leave its buffers and its kept number; its mark is judged by what is lent.
    #[test]
    fn held_calls() {
        let mut r = Random::new(3);
        let sheet = loop {
            let sheet = Sheet { joint: true, counts: [2; 3], hold: Some([2, 1, 2]), ..legal(&mut r, 16, 1) };
            if sheet.channels.len() == 3 {
                break sheet;
            }
        };
        let mut x = fresh(&sheet);
        x.record.channels.iter_mut().for_each(|c| c.position = 5);
        x.record.channels[1].clipped = 7;
        x.buffers.iter_mut().for_each(|b| b.fill(0.5));
        x.buffers.iter_mut().for_each(|b| b[x.record.area()] = f32::NAN);
        let part = |x: &Lent| -> Vec<u32> {
            let own = x.record.area()..2 * x.record.area();
            x.buffers.iter().flat_map(|b| &b[own.clone()]).map(|v| bits(*v)).collect()
        };
        let before = part(&x);
        for job in [Push, Data, Move, Project] {
            x.record.channels[1].position = 5 + JOBS.iter().position(|j| *j == job).expect("a job") as u32;
            x.record.channels.iter_mut().for_each(|c| c.position = c.position.max(if job == Move { 8 } else { 0 }));
            assert_eq!(x.call(job, 1), if job == Project { BLOWN } else { 0 });
        }
        assert_eq!((part(&x), x.record.channels[1].clipped), (before, 7));
        assert_eq!((x.record.channels[1].mark, x.record.channels[1].position), (true, 10));
    }
}
