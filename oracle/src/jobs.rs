//! The proved jobs on lent buffers: document 01, "Each lent buffer has (channels of the run) × W × H values", and a job of one channel is lent
//! that channel's part.
use crate::{
    probe::*,
    sheet::{self, Reorder},
};

/// plane, prior, gradient, across, down, saved
pub type Buffers = [Vec<f32>; 6];

pub const JOBS: [&str; 6] = ["start", "push", "data", "blend", "move", "project"];

/// A channel of a run.
pub struct Own {
    w: usize,
    h: usize,
    across: usize,
    down: usize,
    weight: f32,
    lows: Vec<i16>,
    highs: Vec<i16>,
    table: Vec<u16>,
}

pub struct Lent {
    w: u32,
    h: u32,
    iterations: u32,
    weight: f32,
    reorder: u32,
    channels: Vec<Own>,
    pub buffers: Buffers,
    /// How many coefficients the last project moved.
    pub clipped: u32,
    /// The bits of the last blend's totals.
    pub totals: [u64; 2],
}

/// A run of all channels in joint mode, and of each channel in separate mode, as `run::runs` has them. The buffers hold `fill`.
pub fn runs(sheet: &sheet::Sheet, fill: f32) -> Vec<Lent> {
    let own = |c: &sheet::Channel, weight: sheet::Weight| {
        let (lows, highs) = sheet::lent_levels([c]);
        Own {
            w: c.w as usize,
            h: c.h as usize,
            across: c.across as usize,
            down: c.down as usize,
            weight: weight.value(),
            lows,
            highs,
            table: c.table.iter().map(|quantiser| *quantiser as u16).collect(),
        }
    };
    let lent = |c: usize, channels: Vec<Own>| Lent {
        w: sheet.w,
        h: sheet.h,
        iterations: sheet.counts[c],
        weight: sheet.smoothing[c].value(),
        reorder: u32::from(sheet.reorders() == Reorder::Once),
        buffers: [0; 6].map(|_| vec![fill; channels.len() * (sheet.w * sheet.h) as usize]),
        channels,
        clipped: 0,
        totals: [0; 2],
    };
    let each = sheet.channels.iter();
    if sheet.joint {
        return vec![lent(0, each.zip(sheet.data).map(|(c, weight)| own(c, weight)).collect())];
    }
    each.enumerate().map(|(i, c)| lent(i, vec![own(c, sheet.data[0])])).collect()
}

impl Lent {
    pub fn count(&self) -> usize {
        (self.w * self.h) as usize
    }

    /// How many saved coefficients channel c has.
    pub fn own_count(&self, c: usize) -> usize {
        self.channels[c].w * self.channels[c].h
    }

    /// Channel c's part of buffer k.
    pub fn part(&self, k: usize, c: usize) -> &[f32] {
        let n = self.count();
        &self.buffers[k][c * n..(c + 1) * n]
    }

    fn parts(&mut self, c: usize) -> [*mut f32; 6] {
        let n = self.count();
        self.buffers.each_mut().map(|buffer| buffer[c * n..].as_mut_ptr())
    }

    /// A job of JOBS for channel c, or blend for all channels, in a step counted from 0.
    pub fn job(&mut self, job: &str, c: usize, step: usize) {
        let [plane, prior, gradient, across, down, saved] = self.parts(c);
        let (n, o, step) = (self.count(), &self.channels[c], step as u32);
        let (w, h, full_w, full_h) = (self.w, self.h, self.w as usize, self.h as usize);
        let (iterations, weight) = (self.iterations, self.weight);
        let (lows, highs, own, table) = (o.lows.as_ptr(), o.highs.as_ptr(), o.lows.len(), o.table.as_ptr());
        match job {
            "start" => unsafe {
                probe_start(
                    plane,
                    n,
                    prior,
                    n,
                    gradient,
                    n,
                    across,
                    n,
                    down,
                    n,
                    saved,
                    n,
                    o.w,
                    o.h,
                    o.across,
                    o.down,
                    full_w,
                    full_h,
                    self.reorder,
                    lows,
                    own,
                    highs,
                    own,
                    table,
                    64,
                );
            },
            "push" => unsafe { probe_push(plane, n, prior, n, w, h, iterations, weight, step) },
            "data" => unsafe {
                probe_data(
                    saved, n, gradient, n, o.w, o.h, o.across, o.down, full_w, full_h, o.weight, lows, own, highs, own,
                    table, 64,
                );
            },
            "blend" => unsafe {
                let channels = self.channels.len();
                let (all, totals) = (channels * n, self.totals.as_mut_ptr());
                probe_blend(
                    plane, all, gradient, all, across, all, down, all, channels, w, h, iterations, weight, step,
                    totals, 2,
                );
            },
            "move" => unsafe { probe_move(plane, n, gradient, n, w, h, iterations, weight, step) },
            "project" => unsafe {
                self.clipped = probe_project(
                    plane, n, across, n, down, n, saved, n, o.w, o.h, o.across, o.down, full_w, full_h, lows, own,
                    highs, own, table, 64,
                ) as u32;
            },
            _ => panic!("{job} is no job"),
        }
    }

    /// The condition of job 5.
    pub fn is_blown(&self, c: usize) -> bool {
        let (plane, saved) = (self.part(0, c), self.part(5, c));
        unsafe { probe_blown(plane.as_ptr(), plane.len(), saved.as_ptr(), saved.len(), self.own_count(c)) != 0 }
    }
}
