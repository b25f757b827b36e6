//! Document 01's table of refusals, and what else a call may answer.
use std::fmt;

/// Why a call was refused. A refused call leaves the record and every buffer as they were.
#[derive(Clone, Copy, Debug, PartialEq, Eq, Hash)]
#[repr(u8)]
pub enum Refusal {
    Form = 1,
    Size,
    Factor,
    Table,
    Level,
    Weight,
    Cut,
    Length,
    Turn,
    Blown,
    Done,
    Channel,
    Record,
    Range,
    Page,
    Seam,
    Hold,
    Mark,
    Segment,
    Precision,
}

use Refusal::*;

impl Refusal {
    pub const ALL: [Self; 20] = [
        Form, Size, Factor, Table, Level, Weight, Cut, Length, Turn, Blown, Done, Channel, Record, Range, Page, Seam,
        Hold, Mark, Segment, Precision,
    ];

    pub const fn number(self) -> u32 {
        self as u32
    }

    pub const fn of_number(number: u32) -> Option<Self> {
        let mut k = 0;
        while k < Self::ALL.len() {
            if Self::ALL[k].number() == number {
                return Some(Self::ALL[k]);
            }
            k += 1;
        }
        None
    }

    pub const fn word(self) -> &'static str {
        match self {
            Form => "form",
            Size => "size",
            Factor => "factor",
            Table => "table",
            Level => "level",
            Weight => "weight",
            Cut => "cut",
            Length => "length",
            Turn => "turn",
            Blown => "blown",
            Done => "done",
            Channel => "channel",
            Record => "record",
            Range => "range",
            Page => "page",
            Seam => "seam",
            Hold => "hold",
            Mark => "mark",
            Segment => "segment",
            Precision => "precision",
        }
    }

    pub const fn plain_words(self) -> &'static str {
        match self {
            Form => "a line with a wrong tag, number of fields or spelling, over 1,024 bytes, or in the wrong place",
            Size => {
                "a side, channel count or iteration count out of range, or a channel larger than the picture; also a limit or a reader that is none"
            }
            Factor => "an across or down factor that isn't 1 to 4",
            Table => "a quantiser that isn't 1 to 255",
            Level => "a level beyond ±2,047",
            Weight => "a weight with its sign bit set, infinite, not a number, or a whole number above 255",
            Cut => "the text ends early, its last line has no end, or something follows `E`",
            Length => "a lent buffer has another length than the record says",
            Turn => "the job isn't the channel's next, or for blend not every channel's",
            Blown => "the channel's values overflowed in an earlier step",
            Done => "the channel has had all its steps",
            Channel => "there is no such channel",
            Record => {
                "sizes, factors, weights, iterations, held steps, positions, marks or clipped numbers of no legal record"
            }
            Range => "a lowest level above the highest of its place",
            Page => "an iteration count within 1,000 but above the caller's limit",
            Seam => "two sheets that do not fit side by side",
            Hold => "a count of line `H` above the iterations that it is measured against",
            Mark => "a mark of line `N` whose channel or block the sheet has not, or whose block is marked already",
            Segment => {
                "a DQT segment with a wrong marker or stated length, or with fewer than 64 bytes left for a table"
            }
            Precision => "a table of a DQT segment with a precision other than 0 or a destination above 3",
        }
    }
}

impl fmt::Display for Refusal {
    fn fmt(&self, f: &mut fmt::Formatter) -> fmt::Result {
        write!(f, "{} ({}): {}", self.number(), self.word(), self.plain_words())
    }
}

impl std::error::Error for Refusal {}

/// Why a call gave nothing.
#[derive(Clone, Copy, Debug, PartialEq, Eq, Hash)]
pub enum Error {
    Refused(Refusal),
    /// This thread's processor is set otherwise than the library needs it ([`rounds_to_nearest`](crate::rounds_to_nearest)): the call was not made, and nothing has changed.
    Mode,
    /// A number that the call has no meaning for: the library is another than the one that this crate was written for. Nothing is known of what was lent.
    Unknown(u32),
}

impl From<Refusal> for Error {
    fn from(refusal: Refusal) -> Self {
        Self::Refused(refusal)
    }
}

impl fmt::Display for Error {
    fn fmt(&self, f: &mut fmt::Formatter) -> fmt::Result {
        match self {
            Self::Refused(refusal) => refusal.fmt(f),
            Self::Mode => f.write_str(
                "the processor is set to round otherwise than to the nearest, or to drop subnormals: nothing is computed",
            ),
            Self::Unknown(number) => write!(f, "{number}: no answer of this call"),
        }
    }
}

impl std::error::Error for Error {}

/// What the answer of a call says that can't blow a channel: 0 is the only success.
pub(crate) fn done(number: u32) -> Result<(), Error> {
    match number {
        0 => Ok(()),
        _ => Err(Refusal::of_number(number).map_or(Error::Unknown(number), Error::Refused)),
    }
}

/// A text that wasn't read: why, and the line, counted from 1; 0 for a fault that no line has.
#[derive(Clone, Copy, Debug, PartialEq, Eq, Hash)]
pub struct Fault {
    pub error: Error,
    pub line: usize,
}

impl fmt::Display for Fault {
    fn fmt(&self, f: &mut fmt::Formatter) -> fmt::Result {
        if self.line > 0 {
            write!(f, "line {}: ", self.line)?;
        }
        self.error.fmt(f)
    }
}

impl std::error::Error for Fault {}
