//! Lines for the program `replay_calls`: a list of calls on a fresh run, and a digest of what it has to leave.
use crate::{
    calls::{Lent, Record},
    floats::bits,
    jobs::Buffers,
};

/// A list of calls by the numbers of their jobs and channels. The list's answers are 77 before, `answers` of them.
pub struct Calls<'a> {
    pub jobs: &'a [u8],
    pub channels: &'a [u32],
    pub answers: usize,
}

/// A line, all its numbers in hexadecimal: `serve`; the digest; what all values of the six buffers are before; the lengths of plane, prior, gradient,
/// across, down, saved, lows, highs, tables, jobs, channels and answers; the record's 33 numbers; lows and highs (modulo 2^16), quantisers, jobs and channels.
pub fn line(digest: u64, fill: f32, x: &Lent, calls: &Calls) -> String {
    let lengths = x.buffers.iter().map(Vec::len).chain([x.lows.len(), x.highs.len(), x.tables.len()]);
    let lengths = lengths.chain([calls.jobs.len(), calls.channels.len(), calls.answers]);
    let words = [bits(fill)]
        .into_iter()
        .chain(lengths.map(|n| n as u32))
        .chain(x.record.numbers())
        .chain(x.lows.iter().chain(&x.highs).map(|d| u32::from(*d as u16)))
        .chain(x.tables.iter().map(|q| u32::from(*q)))
        .chain(calls.jobs.iter().map(|j| u32::from(*j)))
        .chain(calls.channels.iter().copied());
    let words: String = words.map(|n| format!(" {n:x}")).collect();
    format!("serve {digest:x}{words}")
}

/// Of the call's answer, the list's answers, the record and the six buffers: 31 times what it was plus the next number, modulo 2^32.
pub fn digest(answer: u32, answers: &[u8], record: &Record, buffers: &Buffers) -> u64 {
    let told = [answer].into_iter().chain(answers.iter().map(|a| u32::from(*a))).chain(record.numbers());
    let values = buffers.iter().flatten().map(|v| bits(*v));
    told.chain(values).fold(0, |digest, n| (digest * 31 + u64::from(n)) % (1 << 32))
}

/// Whether the program has room for it, and a value for its letter: there the letter is no number.
pub fn fits(x: &Lent, calls: &Calls) -> bool {
    let large = x.buffers.iter().map(Vec::len).chain([x.lows.len(), x.highs.len()]).max();
    let small = [x.tables.len(), calls.jobs.len(), calls.channels.len(), calls.answers].into_iter().max();
    large <= Some(3072) && small <= Some(256) && x.record.reorder <= 1
}
