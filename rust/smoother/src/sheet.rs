//! Sheet texts: measured, and read into a sheet.
use crate::{
    Buffers, Channel, Error, Fault, Outcome, Reorder, Run, Totals,
    ffi::{lend, *},
    mode::nearest,
    refusal::done,
    run::told,
};

/// Lengths of the levels and tables of a text; there are as many lows as highs.
#[derive(Clone, Copy, Debug, PartialEq, Eq)]
pub struct Lengths {
    pub levels: usize,
    pub tables: usize,
}

/// Levels as the calls are lent them: the lowest and the highest of each place, w × h of each a channel.
#[derive(Clone, Copy, Debug, PartialEq, Eq)]
pub struct Levels<'a> {
    pub lows: &'a [i16],
    pub highs: &'a [i16],
}

/// Levels that are known: each is its place's lowest and highest.
impl<'a> From<&'a [i16]> for Levels<'a> {
    fn from(levels: &'a [i16]) -> Self {
        Self { lows: levels, highs: levels }
    }
}

/// A channel's own sides and factors in a sheet.
#[derive(Clone, Copy, Debug, Default, PartialEq, Eq)]
pub struct Own {
    pub width: u32,
    pub height: u32,
    pub across: u32,
    pub down: u32,
}

/// A sheet that was read: the fields of its `S` line, its channels' own sides and factors, the lowest and highest levels and the tables.
#[derive(Clone, Debug, PartialEq)]
pub struct Sheet {
    pub width: u32,
    pub height: u32,
    pub picture_width: u32,
    pub picture_height: u32,
    /// Channels, 1 or 3.
    pub count: u32,
    pub joint: bool,
    pub iterations: [u32; 3],
    pub smoothing: [f32; 3],
    pub data: [f32; 3],
    /// Line `F`: truncated where there is none.
    pub rounding: Rounding,
    /// Line `A`: after each block where there is none.
    pub reorder: Reorder,
    /// Line `H`: after how many steps each channel is held; where there is none, the iterations that it is measured against.
    pub held: [u32; 3],
    /// Zeros past `count`.
    pub own: [Own; 3],
    /// The lowest level of each place; a level of a line `B` is both.
    pub lows: Vec<i16>,
    pub highs: Vec<i16>,
    pub tables: Vec<u16>,
}

/// How a clamped value becomes a byte of the picture.
#[derive(Clone, Copy, Debug, Default, PartialEq, Eq)]
pub enum Rounding {
    /// Truncated, as in the published Rust: `t`.
    #[default]
    Truncate,
    /// The nearest whole number, halves upward, as in T.871: `n`.
    Nearest,
}

/// What a caller allows. Whatever the limits, a text that is accepted reads as the same sheet.
#[derive(Clone, Copy, Debug, PartialEq, Eq)]
pub struct Limits {
    /// The largest full side: a multiple of 8, 8 to 512. The program `smooth` has 32.
    pub side: u32,
    /// The largest iteration count, 0 to 1,000, of spare ones too.
    pub iterations: u32,
}

/// The largest of each.
impl Default for Limits {
    fn default() -> Self {
        Self { side: 512, iterations: 1_000 }
    }
}

/// Numbers of a sheet's record.
pub const NUMBERS: usize = 32;

/// Who reads a text (document 02, M-110).
#[derive(Clone, Copy, Debug, Default, PartialEq, Eq)]
pub enum Reader {
    /// Gets all levels.
    #[default]
    Staff = 0,
    /// Gets the same but for 0 in place of all levels, or pairs, after the first of a block that a line `N` marks.
    Partner = 1,
}

fn at(line: usize) -> impl FnOnce(Error) -> Fault {
    move |error| Fault { error, line }
}

/// The lengths that a legal text needs; for any other, what `read` refuses it for. Limits that no caller may set are refused (`Size`, line 0) before the text is looked at.
pub fn measure(text: &[u8], limits: Limits) -> Result<Lengths, Fault> {
    let (mut levels, mut tables, mut line) = (0, 0, 0);
    // SAFETY: pointer and length are of one slice, the other three are references to locals.
    let number = unsafe {
        lend!(smoother_measure(read text, limits.side, limits.iterations, &mut levels, &mut tables, &mut line))
    };
    done(number).map(|()| Lengths { levels, tables }).map_err(at(line))
}

/// Reads a text into lent buffers: `lows`, `highs` and `tables` of the measured lengths, and `header` of `NUMBERS` places, for the fields of line `S` (mode 1
/// joint, 0 separate; weights as f32 bits), own sides and factors of three channels, then the rounding (0 truncated, 1 nearest), the reordering (0 after each
/// block, 1 once) and the three held steps. Whether and how a text is refused is the same for both readers.
pub fn read_into(
    text: &[u8],
    limits: Limits,
    reader: Reader,
    lows: &mut [i16],
    highs: &mut [i16],
    tables: &mut [u16],
    header: &mut [u32],
) -> Result<(), Fault> {
    let mut line = 0;
    // SAFETY: each pointer and length are of one slice, and the slices do not overlap.
    let number = unsafe {
        lend!(smoother_read(
            read text, limits.side, limits.iterations, reader as u32, write lows, write highs, write tables, write header, &mut line
        ))
    };
    done(number).map_err(at(line))
}

/// Reads a text as staff.
pub fn read(text: &[u8], limits: Limits) -> Result<Sheet, Fault> {
    read_as(text, limits, Reader::Staff)
}

/// Reads a text for this reader.
pub fn read_as(text: &[u8], limits: Limits, reader: Reader) -> Result<Sheet, Fault> {
    let lengths = measure(text, limits)?;
    let (mut lows, mut highs) = (vec![0; lengths.levels], vec![0; lengths.levels]);
    let (mut tables, mut n) = (vec![0; lengths.tables], [0; NUMBERS]);
    read_into(text, limits, reader, &mut lows, &mut highs, &mut tables, &mut n)?;
    let three = |at: usize| [n[at], n[at + 1], n[at + 2]];
    let own = |at: usize| Own { width: n[at], height: n[at + 1], across: n[at + 2], down: n[at + 3] };
    Ok(Sheet {
        width: n[0],
        height: n[1],
        picture_width: n[2],
        picture_height: n[3],
        count: n[4],
        joint: n[5] == 1,
        iterations: three(6),
        smoothing: three(9).map(f32::from_bits),
        data: three(12).map(f32::from_bits),
        rounding: if n[27] == 1 { Rounding::Nearest } else { Rounding::Truncate },
        reorder: if n[28] == 1 { Reorder::Once } else { Reorder::Each },
        held: three(29),
        own: [own(15), own(19), own(23)],
        lows,
        highs,
        tables,
    })
}

impl Own {
    /// The channel at position 0, unmarked, with this data weight, held after this many steps.
    pub fn channel(self, weight: f32, held: u32) -> Channel {
        let Self { width, height, across, down } = self;
        Channel { width, height, across, down, weight, held, position: 0, mark: false, clipped: 0 }
    }

    fn area(self) -> usize {
        self.width as usize * self.height as usize
    }
}

/// What the whole run of a sheet leaves.
#[derive(Clone, Debug, PartialEq)]
pub struct Solved {
    /// The planes of all channels, one after the other.
    pub planes: Vec<f32>,
    /// Both totals of each blend, run after run (in joint mode one run) and step after step.
    pub totals: Vec<Totals>,
    /// How many coefficients each channel's last project clipped; 0 without steps.
    pub clipped: Vec<u32>,
}

impl Sheet {
    /// After how many steps channel `c` is held in a run of `n` steps of this mode. The held steps are those of the sheet's mode; a run of the other holds none.
    fn held_in(&self, joint: bool, c: usize, n: u32) -> u32 {
        if self.joint == joint || self.count == 1 { self.held[c] } else { n }
    }

    /// The record of the run of all channels: the first iteration count, the first smoothing weight, each channel's data weight and held steps.
    pub fn joint_run(&self) -> Run {
        let n = self.iterations[0];
        let channels = std::array::from_fn(|c| self.own[c].channel(self.data[c], self.held_in(true, c, n)));
        Run { count: self.count, ..self.run(0, channels) }
    }

    /// The record of channel `c` alone: its iteration count, its smoothing weight, its held steps, and always the first data weight.
    ///
    /// # Panics
    /// Where `c` isn't below 3.
    pub fn separate_run(&self, c: usize) -> Run {
        let held = self.held_in(false, c, self.iterations[c]);
        self.run(c, [self.own[c].channel(self.data[0], held), Channel::default(), Channel::default()])
    }

    fn run(&self, c: usize, channels: [Channel; 3]) -> Run {
        Run {
            w: self.width,
            h: self.height,
            n: self.iterations[c],
            smoothing: self.smoothing[c],
            reorder: self.reorder,
            count: 1,
            channels,
        }
    }

    /// All levels.
    pub fn levels(&self) -> Levels<'_> {
        Levels { lows: &self.lows, highs: &self.highs }
    }

    /// Levels of channel `c`.
    ///
    /// # Panics
    /// Where `c` isn't below 3.
    pub fn levels_of(&self, c: usize) -> Levels<'_> {
        let before: usize = self.own[..c].iter().map(|own| own.area()).sum();
        let own = before..before + self.own[c].area();
        Levels { lows: &self.lows[own.clone()], highs: &self.highs[own] }
    }

    /// Quantisers of channel `c`.
    ///
    /// # Panics
    /// Where the sheet has no channel `c`.
    pub fn table_of(&self, c: usize) -> &[u16] {
        &self.tables[64 * c..][..64]
    }

    /// The record's numbers, as `read_into` lends them out.
    pub fn numbers(&self) -> [u32; NUMBERS] {
        let mut n = [0; NUMBERS];
        n[..6].copy_from_slice(&[
            self.width,
            self.height,
            self.picture_width,
            self.picture_height,
            self.count,
            u32::from(self.joint),
        ]);
        n[6..9].copy_from_slice(&self.iterations);
        n[9..12].copy_from_slice(&self.smoothing.map(f32::to_bits));
        n[12..15].copy_from_slice(&self.data.map(f32::to_bits));
        for (own, at) in self.own.iter().zip([15, 19, 23]) {
            n[at..at + 4].copy_from_slice(&[own.width, own.height, own.across, own.down]);
        }
        n[27] = self.rounding as u32;
        n[28] = self.reorder as u32;
        n[29..].copy_from_slice(&self.held);
        n
    }

    /// How many blends the sheet's runs make: one in each step of each run.
    pub fn blends(&self) -> usize {
        let runs = if self.joint { 1 } else { self.count.min(3) as usize };
        self.iterations[..runs].iter().map(|n| *n as usize).sum()
    }

    /// What the sheet's run leaves after its last job, in its mode; none where a channel blew in the run.
    pub fn solve(&self) -> Result<Option<Solved>, Error> {
        let mut b = self.joint_run().buffers();
        let mut totals = vec![0.0; 2 * self.blends()];
        let mut clipped = vec![0; self.count.min(3) as usize];
        let outcome = solve_into(&self.numbers(), self.levels(), &self.tables, &mut b, &mut clipped, &mut totals)?;
        let totals = totals.chunks_exact(2).map(|both| Totals::from([both[0], both[1]])).collect();
        Ok((outcome == Outcome::Done).then_some(Solved { planes: b.plane, totals, clipped }))
    }

    /// The picture of solved planes: red, green and blue of each pixel, row by row.
    pub fn finish(&self, planes: &[f32]) -> Result<Vec<u8>, Error> {
        let within = |n: u32, most: u32| n.min(most).min(512) as usize;
        let bytes = 3 * within(self.picture_width, self.width) * within(self.picture_height, self.height);
        let mut rgb = vec![0; bytes];
        let sides = [self.width, self.height, self.picture_width, self.picture_height];
        finish_into(self.rounding, sides, self.count, planes, &mut rgb).map(|()| rgb)
    }
}

/// The whole run of a sheet by its record's numbers, in lent buffers of channels × W × H values each, which become each channel's after its last
/// job; `totals` has two places for each blend (`Sheet::blends`), which become its totals; `clipped` has a place for each channel, which becomes the
/// number of coefficients that its last project clipped. `Outcome::Blown`: a channel blew in the run, nothing is promised of the buffers and the totals,
/// and `clipped` is as it was.
pub fn solve_into(
    header: &[u32],
    levels: Levels,
    tables: &[u16],
    b: &mut Buffers,
    clipped: &mut [u32],
    totals: &mut [f64],
) -> Result<Outcome, Error> {
    nearest()?;
    // SAFETY: each pointer and length are of one slice, and the slices do not overlap.
    told(unsafe {
        lend!(smoother_solve(
            read header, read levels.lows, read levels.highs, read tables, six b, write clipped, write totals
        ))
    })
}

/// The picture of planes, in lent bytes; `sides` are W, H and the picture's.
pub fn finish_into(
    rounding: Rounding,
    sides: [u32; 4],
    channels: u32,
    planes: &[f32],
    rgb: &mut [u8],
) -> Result<(), Error> {
    nearest()?;
    let [w, h, width, height] = sides;
    // SAFETY: each pointer and length are of one slice, and the slices do not overlap.
    done(unsafe { lend!(smoother_finish(rounding as u32, w, h, width, height, channels, read planes, write rgb)) })
}
