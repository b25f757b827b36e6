//! A run: its record, its buffers, and the calls.
use crate::{
    Error, Levels,
    ffi::{lend, *},
    mode::nearest,
    refusal::done,
};

/// A channel of the run's record; the layout is the library's.
#[repr(C)]
#[derive(Clone, Copy, Debug, Default, PartialEq)]
pub struct Channel {
    pub width: u32,
    pub height: u32,
    pub across: u32,
    pub down: u32,
    /// Data weight.
    pub weight: f32,
    /// Held after this many steps, 0 to N: its later jobs leave its buffers as they are, and blend leaves it out.
    pub held: u32,
    /// Accepted jobs, 0 to 5N.
    pub position: u32,
    /// Whether it is blown.
    pub mark: bool,
    /// How many coefficients its last project clipped; 0 before the first.
    pub clipped: u32,
}

/// When start reorders a channel's image.
#[derive(Clone, Copy, Debug, Default, PartialEq, Eq)]
#[repr(u32)]
pub enum Reorder {
    /// After each block, as in the published Rust: `m`.
    #[default]
    Each,
    /// Once, after the last block, as T.81 places blocks: `o`.
    Once,
}

/// The run's record; the layout is the library's. `Sheet::joint_run` and `Sheet::separate_run` make one.
#[repr(C)]
#[derive(Clone, Copy, Debug, Default, PartialEq)]
pub struct Run {
    pub w: u32,
    pub h: u32,
    /// Steps.
    pub n: u32,
    /// Smoothing weight.
    pub smoothing: f32,
    /// Line `A`: only `start` looks at it.
    pub reorder: Reorder,
    /// Channels, 1 or 3: the first of `channels`.
    pub count: u32,
    pub channels: [Channel; 3],
}

/// The six buffers, each of count × W × H values: channel after channel, row by row.
#[derive(Clone, Debug, Default, PartialEq)]
pub struct Buffers {
    pub plane: Vec<f32>,
    pub prior: Vec<f32>,
    pub gradient: Vec<f32>,
    pub across: Vec<f32>,
    pub down: Vec<f32>,
    pub saved: Vec<f32>,
}

impl Buffers {
    /// Zeros, of `length` values each.
    pub fn zeros(length: usize) -> Self {
        let zeros = || vec![0.0; length];
        Self { plane: zeros(), prior: zeros(), gradient: zeros(), across: zeros(), down: zeros(), saved: zeros() }
    }
}

impl Run {
    /// Zeros of the lengths that this record needs. A record that isn't legal gets empty buffers: every call refuses it.
    pub fn buffers(&self) -> Buffers {
        let side = |n: u32| n <= 512;
        let legal = side(self.w) && side(self.h) && self.count <= 3;
        Buffers::zeros(if legal { (self.count * self.w * self.h) as usize } else { 0 })
    }

    /// Whether the record is legal and has at most 20 steps, and weights of at most 1: then no call on its runs ever says [`Outcome::Blown`] or refuses with
    /// [`Refusal::Blown`](crate::Refusal::Blown), whatever levels, tables and calls follow.
    pub fn never_blows(&self) -> bool {
        let mut run = *self;
        // SAFETY: the library reads and writes the record, of which this is a copy.
        unsafe { smoother_never_blows(lent(&mut run)) == 1 }
    }
}

/// What an accepted call says.
#[derive(Clone, Copy, Debug, PartialEq, Eq, Hash)]
pub enum Outcome {
    Done,
    /// Done, and the channel is now marked blown (`project`), or a channel blew in the run (`solve_into`). No other call says so.
    Blown,
}

/// What an accepted project says: how many coefficients lay outside their intervals, which the record keeps.
#[derive(Clone, Copy, Debug, PartialEq, Eq, Hash)]
pub struct Projected {
    pub outcome: Outcome,
    pub clipped: u32,
}

/// What an accepted blend says: the totals of the first and of the second order, which the smoothing is to lower.
#[derive(Clone, Copy, Debug, PartialEq)]
pub struct Totals {
    pub tv: f64,
    pub tgv: f64,
}

impl From<[f64; 2]> for Totals {
    fn from([tv, tgv]: [f64; 2]) -> Totals {
        Totals { tv, tgv }
    }
}

/// The five jobs of a step, each with its number.
#[derive(Clone, Copy, Debug, PartialEq, Eq, Hash)]
#[repr(u8)]
pub enum Job {
    Push,
    Data,
    Blend,
    Move,
    Project,
}

/// What the answer of `project` and of `solve_into` says.
pub(crate) fn told(number: u32) -> Result<Outcome, Error> {
    if number == 255 { Ok(Outcome::Blown) } else { plain(number) }
}

/// What the answer of any other call says.
fn plain(number: u32) -> Result<Outcome, Error> {
    done(number).map(|()| Outcome::Done)
}

/// The record, for the library to write.
///
/// # Panics
/// Where the library's record has another size: the library is another than the one that this crate was written for.
fn lent(run: &mut Run) -> &mut Run {
    // SAFETY: it takes nothing and answers a number.
    let bytes = unsafe { smoother_run_bytes() } as usize;
    assert_eq!(bytes, size_of::<Run>(), "bytes of the record in libsmoother.a and in the crate `smoother`");
    run
}

// SAFETY, of every call below: each pointer and length are of one slice or vector, `&mut` keeps them apart, and the library writes only within the
// lengths and only legal records.

/// A fresh run: plane and prior are the start, saved is half sum × quantiser, other values 0; positions 0, no marks, nothing clipped. Takes any legal record.
pub fn start(run: &mut Run, levels: Levels, tables: &[u16], b: &mut Buffers) -> Result<Outcome, Error> {
    nearest()?;
    plain(unsafe { lend!(smoother_start(lent(run), read levels.lows, read levels.highs, read tables, six b)) })
}

/// Push of channel `c`: writes its part of plane and prior.
pub fn push(run: &mut Run, c: u32, b: &mut Buffers) -> Result<Outcome, Error> {
    nearest()?;
    plain(unsafe { lend!(smoother_push(lent(run), c, write b.plane, write b.prior)) })
}

/// Data of channel `c`: writes its part of the gradient, reads saved.
pub fn data(run: &mut Run, c: u32, levels: Levels, tables: &[u16], b: &mut Buffers) -> Result<Outcome, Error> {
    nearest()?;
    plain(unsafe {
        lend!(smoother_data(lent(run), c, read levels.lows, read levels.highs, read tables, write b.gradient, read b.saved))
    })
}

/// Blend of all channels: writes gradient, across and down, reads the plane.
pub fn blend(run: &mut Run, b: &mut Buffers) -> Result<Totals, Error> {
    nearest()?;
    let mut both = [0.0; 2];
    plain(unsafe {
        lend!(smoother_blend(lent(run), read b.plane, write b.gradient, write b.across, write b.down, write both))
    })?;
    Ok(Totals::from(both))
}

/// Move of channel `c`: writes its part of the plane, reads the gradient.
pub fn move_plane(run: &mut Run, c: u32, b: &mut Buffers) -> Result<Outcome, Error> {
    nearest()?;
    plain(unsafe { lend!(smoother_move(lent(run), c, write b.plane, read b.gradient)) })
}

/// Project of channel `c`: writes its part of plane, across, down and saved.
pub fn project(run: &mut Run, c: u32, levels: Levels, tables: &[u16], b: &mut Buffers) -> Result<Projected, Error> {
    nearest()?;
    let outcome = told(unsafe {
        lend!(smoother_project(
            lent(run), c, read levels.lows, read levels.highs, read tables, write b.plane, write b.across, write b.down, write b.saved
        ))
    })?;
    Ok(Projected { outcome, clipped: run.channels[c as usize].clipped }) // c is a channel's number, or the call was refused
}

/// The call of any job. Blend looks at no channel number.
pub fn call(
    run: &mut Run,
    job: Job,
    c: u32,
    levels: Levels,
    tables: &[u16],
    b: &mut Buffers,
) -> Result<Outcome, Error> {
    match job {
        Job::Push => push(run, c, b),
        Job::Data => data(run, c, levels, tables, b),
        Job::Blend => blend(run, b).map(|_| Outcome::Done),
        Job::Move => move_plane(run, c, b),
        Job::Project => project(run, c, levels, tables, b).map(|said| said.outcome),
    }
}

/// What each call of a list answers.
pub type Answers = Vec<Result<Outcome, Error>>;

/// A fresh run and a list of calls, each a job and a channel. The inner answers are the calls', the outer one is refused where nothing was done.
pub fn serve(
    run: &mut Run,
    calls: &[(Job, u32)],
    levels: Levels,
    tables: &[u16],
    b: &mut Buffers,
) -> Result<Answers, Error> {
    let jobs: Vec<u8> = calls.iter().map(|(job, _)| *job as u8).collect();
    let channels: Vec<u32> = calls.iter().map(|(_, c)| *c).collect();
    let mut answers = vec![0; calls.len()];
    serve_numbers(run, &jobs, &channels, &mut answers, levels, tables, b)?;
    let of_job = |job: Job| if job == Job::Project { told } else { plain };
    Ok(calls.iter().zip(answers).map(|((job, _), number)| of_job(*job)(number.into())).collect())
}

/// The same with the library's numbers: jobs 0 to 4, and an answer 0 for done, 255 for done and blown, else the refusal's number.
pub fn serve_numbers(
    run: &mut Run,
    jobs: &[u8],
    channels: &[u32],
    answers: &mut [u8],
    levels: Levels,
    tables: &[u16],
    b: &mut Buffers,
) -> Result<(), Error> {
    nearest()?;
    done(unsafe {
        lend!(smoother_serve(lent(run), read jobs, read channels, write answers, read levels.lows, read levels.highs, read tables, six b))
    })
}

#[cfg(test)]
mod tests {
    use super::*;
    use crate::Refusal;

    #[test]
    fn sizes_are_the_librarys() {
        let library = unsafe { (smoother_run_bytes(), smoother_sheet_numbers()) };
        assert_eq!((size_of::<Run>() as u32, crate::NUMBERS as u32), library);
    }

    #[test]
    fn only_0_is_done() {
        assert_eq!([plain(0), told(0), told(255)], [Ok(Outcome::Done), Ok(Outcome::Done), Ok(Outcome::Blown)]);
        for refusal in Refusal::ALL {
            assert_eq!([plain, told].map(|say| say(refusal.number())), [Err(refusal.into()); 2]);
        }
        for number in [21, 254, 256, u32::MAX] {
            assert_eq!([plain, told].map(|say| say(number)), [Err(Error::Unknown(number)); 2]);
        }
        assert_eq!(plain(255), Err(Error::Unknown(255)));
    }
}
