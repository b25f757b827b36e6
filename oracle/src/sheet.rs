//! The sheet text, read and written as document 01, "Sheet records", and document 02 say. Nothing here is taken from the proved reader.
use std::collections::HashSet;

/// The number of a refusal in document 01's table, and the line.
pub type Refusal = (u32, usize);
type Fault = u32;

const FORM: Fault = 1;
const SIZE: Fault = 2;
const FACTOR: Fault = 3;
const TABLE: Fault = 4;
const LEVEL: Fault = 5;
const WEIGHT: Fault = 6;
const CUT: Fault = 7;
const RANGE: Fault = 14;
const PAGE: Fault = 15;
const HOLD: Fault = 17;
const MARK: Fault = 18;

#[derive(Clone, Copy, Debug, PartialEq)]
pub enum Weight {
    Bits(u32),
    Whole(u32),
}

impl Weight {
    pub fn value(self) -> f32 {
        match self {
            Self::Bits(bits) => f32::from_bits(bits),
            Self::Whole(number) => number as f32,
        }
    }
}

/// How a clamped value becomes a byte: the letters of line `F` (M-100).
#[derive(Clone, Copy, Debug, PartialEq)]
pub enum Rounding {
    Truncate,
    Nearest,
}

/// How the start's blocks are reordered: the letters of line `A` (M-102).
#[derive(Clone, Copy, Debug, PartialEq)]
pub enum Reorder {
    /// `m`: after each block, as in the published Rust.
    Each,
    /// `o`: once, after all blocks.
    Once,
}

/// A channel's levels, block after block: the lowest and the highest of each place, and whether the block's line is `G` (M-105). "a `B` level stands in both".
#[derive(Clone, Debug, Default, PartialEq)]
pub struct Levels {
    pub lows: Vec<i32>,
    pub highs: Vec<i32>,
    pub ranged: Vec<bool>,
}

/// Levels of lines `B`.
impl FromIterator<i32> for Levels {
    fn from_iter<I: IntoIterator<Item = i32>>(levels: I) -> Self {
        let lows: Vec<i32> = levels.into_iter().collect();
        Self { highs: lows.clone(), ranged: vec![false; lows.len() / 64], lows }
    }
}

impl From<Vec<i32>> for Levels {
    fn from(levels: Vec<i32>) -> Self {
        levels.into_iter().collect()
    }
}

impl Levels {
    /// Of pairs, low and high: a block's line is `G` where a pair of it is unequal.
    pub fn of(lows: Vec<i32>, highs: Vec<i32>) -> Self {
        let ranged = lows.chunks(64).zip(highs.chunks(64)).map(|(low, high)| low != high).collect();
        Self { lows, highs, ranged }
    }

    pub fn pairs(&self) -> impl Iterator<Item = (i32, i32)> {
        self.lows.iter().copied().zip(self.highs.iter().copied())
    }

    /// Whether each pair is equal, whatever the lines.
    pub fn are_equal(&self) -> bool {
        self.lows == self.highs
    }

    /// "the exact half sum of the pair": at most 2,047, with one binary place.
    pub fn half_sums(&self) -> Vec<f32> {
        self.pairs().map(|(low, high)| (low + high) as f32 / 2.0).collect()
    }
}

/// As the calls are lent them, channel after channel: all lows, and all highs.
pub fn lent_levels<'a>(channels: impl IntoIterator<Item = &'a Channel>) -> (Vec<i16>, Vec<i16>) {
    let pairs = channels.into_iter().flat_map(|c| c.levels.pairs());
    pairs.map(|(low, high)| (low as i16, high as i16)).unzip()
}

#[derive(Clone, Debug, PartialEq)]
pub struct Channel {
    pub w: u32,
    pub h: u32,
    pub across: u32,
    pub down: u32,
    pub table: Vec<u32>,
    pub levels: Levels,
}

#[derive(Clone, Debug, PartialEq)]
pub struct Sheet {
    pub w: u32,
    pub h: u32,
    pub picture_w: u32,
    pub picture_h: u32,
    pub joint: bool,
    pub counts: [u32; 3],
    pub smoothing: [Weight; 3],
    pub data: [Weight; 3],
    /// None where there is no line `F`.
    pub rounding: Option<Rounding>,
    /// None where there is no line `A`.
    pub reorder: Option<Reorder>,
    /// The step counts of line `H` (M-108); None where there is none.
    pub hold: Option<[u32; 3]>,
    pub channels: Vec<Channel>,
    /// The channel, block row and block column of each line `N`, in their order (M-110).
    pub marks: Vec<[u32; 3]>,
}

/// Who reads: "The staff reader gets all levels; the partner reader gets the same but for 63 zeros after the first level of a marked block" (M-110).
#[derive(Clone, Copy, Debug, PartialEq)]
pub enum Reader {
    Staff,
    Partner,
}

/// What a caller allows: the largest full side, and the largest iteration count (M-106).
#[derive(Clone, Copy, Debug, PartialEq)]
pub struct Limits {
    pub side: u32,
    pub iterations: u32,
}

/// Of the library.
pub const MOST: Limits = Limits { side: 512, iterations: 1000 };
/// Of the program `smooth`: "W and H above 32 are 2 there"; "the batch program keeps 1,000".
pub const SMOOTH: Limits = Limits { side: 32, ..MOST };

fn full_side(n: u32, most: u32) -> bool {
    n % 8 == 0 && (8..=most).contains(&n)
}

/// What each held count is measured against: "the one at its place, or with three channels in joint mode the first" (M-108).
fn measures(channels: u32, joint: bool, counts: [u32; 3]) -> [u32; 3] {
    if channels == 3 && joint { [counts[0]; 3] } else { counts }
}

/// Reads a whole text. "a parameter above 1,000 is 2, line 0, before the text is read", and so is a side limit that could be no side.
pub fn read(text: &[u8], limits: Limits) -> Result<Sheet, Refusal> {
    if limits.iterations > MOST.iterations || !full_side(limits.side, MOST.side) {
        return Err((SIZE, 0));
    }
    let mut lines = Lines { rest: text, line: 0 };
    lines.sheet(limits).map_err(|fault| (fault, lines.line))
}

struct Lines<'a> {
    rest: &'a [u8],
    line: usize,
}

/// The fields that are left of a line.
struct Fields<'a>(Option<&'a [u8]>);

impl<'a> Iterator for Fields<'a> {
    type Item = &'a [u8];

    fn next(&mut self) -> Option<&'a [u8]> {
        let line = self.0?;
        let tab = line.iter().position(|b| *b == b'\t');
        self.0 = tab.map(|i| &line[i + 1..]);
        Some(&line[..tab.unwrap_or(line.len())])
    }
}

impl<'a> Lines<'a> {
    /// The next line's fields after its tag. Where no text is left, the line is empty and unended.
    fn next(&mut self, tag: &[u8], count: usize) -> Result<Fields<'a>, Fault> {
        self.line += 1;
        let end = self.rest.iter().position(|b| *b == b'\n');
        let line = &self.rest[..end.unwrap_or(self.rest.len())];
        if line.len() > 1024 {
            return Err(FORM);
        }
        self.rest = &self.rest[end.ok_or(CUT)? + 1..];
        let mut fields = Fields(Some(line));
        let tabs = line.iter().filter(|b| **b == b'\t').count();
        if tabs + 1 != count || fields.next() != Some(tag) {
            return Err(FORM);
        }
        Ok(fields)
    }

    /// Whether this is the next line's tag.
    fn is_next(&self, tag: &[u8]) -> bool {
        let end = self.rest.iter().position(|b| matches!(b, b'\t' | b'\n'));
        &self.rest[..end.unwrap_or(self.rest.len())] == tag
    }

    /// The setting that a line of this tag says by one of two letters; none where the next line has another tag.
    fn setting<T: Copy>(&mut self, tag: &[u8], letters: [(&[u8], T); 2]) -> Result<Option<T>, Fault> {
        if !self.is_next(tag) {
            return Ok(None);
        }
        let letter = self.next(tag, 2)?.next().expect("counted");
        letters.iter().find(|(due, _)| *due == letter).map(|(_, meant)| Some(*meant)).ok_or(FORM)
    }

    fn sheet(&mut self, limits: Limits) -> Result<Sheet, Fault> {
        let mut fields = self.next(b"S", 16)?;
        let mut field = || fields.next().expect("counted");
        let side = |n| full_side(n, limits.side);
        let w = number_in(field(), side, SIZE)?;
        let h = number_in(field(), side, SIZE)?;
        let picture_w = number_in(field(), |n| (1..=w).contains(&n), SIZE)?;
        let picture_h = number_in(field(), |n| (1..=h).contains(&n), SIZE)?;
        let channels = number_in(field(), |n| n == 1 || n == 3, SIZE)?;
        let joint = match field() {
            b"j" => true,
            b"s" => false,
            _ => return Err(FORM),
        };
        let mut count = || match number_in(field(), |n| n <= 1000, SIZE)? {
            n if n > limits.iterations => Err(PAGE),
            n => Ok(n),
        };
        let counts = [count()?, count()?, count()?];
        let smoothing = [weight(field())?, weight(field())?, weight(field())?];
        let data = [weight(field())?, weight(field())?, weight(field())?];
        let rounding = self.setting(b"F", [(b"t", Rounding::Truncate), (b"n", Rounding::Nearest)])?;
        let reorder = self.setting(b"A", [(b"m", Reorder::Each), (b"o", Reorder::Once)])?;
        let hold = self.hold(measures(channels, joint, counts))?;
        let channels: Vec<Channel> = (0..channels).map(|_| self.channel(w, h)).collect::<Result<_, _>>()?;
        let marks = self.marks(&channels)?;
        self.next(b"E", 1)?;
        if !self.rest.is_empty() {
            self.line += 1;
            return Err(CUT);
        }
        Ok(Sheet {
            w,
            h,
            picture_w,
            picture_h,
            joint,
            counts,
            smoothing,
            data,
            rounding,
            reorder,
            hold,
            channels,
            marks,
        })
    }

    /// "18 "mark", channel or block absent or marked twice, after the whole line's form".
    fn marks(&mut self, channels: &[Channel]) -> Result<Vec<[u32; 3]>, Fault> {
        let (mut marks, mut met) = (vec![], HashSet::new());
        while self.is_next(b"N") {
            let numbers = self.next(b"N", 4)?.map(number).collect::<Result<Vec<u32>, _>>()?;
            let mark = [numbers[0], numbers[1], numbers[2]];
            let there = |c: &Channel| mark[1] < c.h / 8 && mark[2] < c.w / 8;
            if !channels.get(mark[0] as usize).is_some_and(there) || !met.insert(mark) {
                return Err(MARK);
            }
            marks.push(mark);
        }
        Ok(marks)
    }

    /// "17 "hold", a count above the iterations, at its field", its spelling first.
    fn hold(&mut self, measures: [u32; 3]) -> Result<Option<[u32; 3]>, Fault> {
        if !self.is_next(b"H") {
            return Ok(None);
        }
        let mut fields = self.next(b"H", 4)?;
        let mut count = |most| number_in(fields.next().expect("counted"), |n| n <= most, HOLD);
        Ok(Some([count(measures[0])?, count(measures[1])?, count(measures[2])?]))
    }

    fn channel(&mut self, full_w: u32, full_h: u32) -> Result<Channel, Fault> {
        let mut fields = self.next(b"C", 69)?;
        let mut field = || fields.next().expect("counted");
        let side = |n| n % 8 == 0 && n >= 8;
        let w = number_in(field(), side, SIZE)?;
        let h = number_in(field(), side, SIZE)?;
        let factor = |n| (1..=4).contains(&n);
        let across = number_in(field(), factor, FACTOR)?;
        let down = number_in(field(), factor, FACTOR)?;
        let table = fields.map(|f| number_in(f, |n| (1..=255).contains(&n), TABLE)).collect::<Result<_, _>>()?;
        if w * across > full_w || h * down > full_h {
            return Err(SIZE);
        }
        let mut levels = Levels::default();
        for _ in 0..w * h / 64 {
            self.block(&mut levels)?;
        }
        Ok(Channel { w, h, across, down, table, levels })
    }
}

impl Lines<'_> {
    /// "A block may be written `G` with 64 pairs, low then high, in place of `B`." "low above high, checked after 5 on the same pair and before the next pair".
    fn block(&mut self, levels: &mut Levels) -> Result<(), Fault> {
        let ranged = self.is_next(b"G");
        let mut fields = if ranged { self.next(b"G", 129)? } else { self.next(b"B", 65)? };
        while let Some(field) = fields.next() {
            let low = level(field)?;
            let high = if ranged { level(fields.next().expect("counted"))? } else { low };
            if low > high {
                return Err(RANGE);
            }
            levels.lows.push(low);
            levels.highs.push(high);
        }
        levels.ranged.push(ranged);
        Ok(())
    }
}

fn number(field: &[u8]) -> Result<u32, Fault> {
    if !(1..=6).contains(&field.len()) || (field[0] == b'0' && field.len() > 1) {
        return Err(FORM);
    }
    field.iter().try_fold(0, |n, digit| match digit {
        b'0'..=b'9' => Ok(10 * n + u32::from(digit - b'0')),
        _ => Err(FORM),
    })
}

fn number_in(field: &[u8], legal: impl Fn(u32) -> bool, fault: Fault) -> Result<u32, Fault> {
    let n = number(field)?;
    if legal(n) { Ok(n) } else { Err(fault) }
}

fn level(field: &[u8]) -> Result<i32, Fault> {
    let size = field.strip_prefix(b"-");
    let n = number(size.unwrap_or(field))? as i32;
    if size.is_some() && n == 0 {
        return Err(FORM);
    }
    if n > 2047 {
        return Err(LEVEL);
    }
    Ok(if size.is_some() { -n } else { n })
}

fn weight(field: &[u8]) -> Result<Weight, Fault> {
    let Some(bits) = bit_form(field) else {
        let digits = field.strip_prefix(b"w").ok_or(FORM)?;
        return number_in(digits, |n| n <= 255, WEIGHT).map(Weight::Whole);
    };
    // infinite, NaN or with the sign bit: all from the bits of infinity on
    if bits >= f32::INFINITY.to_bits() { Err(WEIGHT) } else { Ok(Weight::Bits(bits)) }
}

fn bit_form(field: &[u8]) -> Option<u32> {
    let digits = field.strip_prefix(b"h").filter(|d| d.len() == 8)?;
    digits.iter().try_fold(0, |bits, digit| match digit {
        b'0'..=b'9' => Some(bits << 4 | u32::from(digit - b'0')),
        b'a'..=b'f' => Some(bits << 4 | u32::from(digit - b'a' + 10)),
        _ => None,
    })
}

/// Numbers or words parted by `between`.
pub fn joined<T: ToString>(items: impl IntoIterator<Item = T>, between: &str) -> String {
    items.into_iter().map(|item| item.to_string()).collect::<Vec<_>>().join(between)
}

impl Sheet {
    pub fn weights(&self) -> impl Iterator<Item = Weight> {
        self.smoothing.into_iter().chain(self.data)
    }

    pub fn mode(&self) -> &'static str {
        if self.joint { "j" } else { "s" }
    }

    /// "without it `t` holds"
    pub fn rounds(&self) -> Rounding {
        self.rounding.unwrap_or(Rounding::Truncate)
    }

    /// "`m`, also the meaning when it is absent"
    pub fn reorders(&self) -> Reorder {
        self.reorder.unwrap_or(Reorder::Each)
    }

    /// What each held count is measured against.
    pub fn measures(&self) -> [u32; 3] {
        measures(self.channels.len() as u32, self.joint, self.counts)
    }

    /// After how many steps each channel is held: "absent, each equals the iteration count it is measured against".
    pub fn holds(&self) -> [u32; 3] {
        self.hold.unwrap_or_else(|| self.measures())
    }

    /// Whether a channel of it is held before its run's end.
    pub fn is_held(&self) -> bool {
        let ends = self.holds().into_iter().zip(self.measures());
        ends.take(self.channels.len()).any(|(hold, most)| hold < most)
    }

    /// The same sheet, its held counts within what they are measured against.
    pub fn held_within(self) -> Self {
        let most = self.measures();
        let hold = self.hold.map(|counts| std::array::from_fn(|c| counts[c].min(most[c])));
        Self { hold, ..self }
    }

    /// Whether a line of it is `G`.
    pub fn is_ranged(&self) -> bool {
        self.channels.iter().any(|c| c.levels.ranged.contains(&true))
    }

    /// The same sheet with lines `B` alone, where it has lines `G` and each pair is equal.
    pub fn plain(&self) -> Option<Self> {
        let equal = self.channels.iter().all(|c| c.levels.are_equal());
        (self.is_ranged() && equal).then(|| {
            let mut plain = self.clone();
            plain.channels.iter_mut().for_each(|c| c.levels.ranged.fill(false));
            plain
        })
    }

    /// What a reader gets: for a partner "A marked `G` block keeps its first pair, and the other pairs read as 0 and 0".
    pub fn seen_by(&self, reader: Reader) -> Self {
        let mut seen = self.clone();
        if reader == Reader::Partner {
            for [c, row, column] in self.marks.iter().map(|mark| mark.map(|n| n as usize)) {
                let own = &mut seen.channels[c];
                let first = 64 * (row * (own.w as usize / 8) + column);
                own.levels.lows[first + 1..first + 64].fill(0);
                own.levels.highs[first + 1..first + 64].fill(0);
            }
        }
        seen
    }

    pub fn text(&self) -> Vec<u8> {
        let spelled = self.weights().map(|weight| match weight {
            Weight::Bits(bits) => format!("h{bits:08x}"),
            Weight::Whole(number) => format!("w{number}"),
        });
        let sizes = [self.w, self.h, self.picture_w, self.picture_h, self.channels.len() as u32];
        let (sizes, counts) = (joined(sizes, "\t"), joined(self.counts, "\t"));
        let mut text = format!("S\t{sizes}\t{}\t{counts}\t{}\n", self.mode(), joined(spelled, "\t"));
        text += match self.rounding {
            None => "",
            Some(Rounding::Truncate) => "F\tt\n",
            Some(Rounding::Nearest) => "F\tn\n",
        };
        text += match self.reorder {
            None => "",
            Some(Reorder::Each) => "A\tm\n",
            Some(Reorder::Once) => "A\to\n",
        };
        text += &self.hold.map_or(String::new(), |counts| format!("H\t{}\n", joined(counts, "\t")));
        for c in &self.channels {
            text += &format!("C\t{}\t{}\n", joined([c.w, c.h, c.across, c.down], "\t"), joined(&c.table, "\t"));
            let pairs: Vec<_> = c.levels.pairs().collect();
            for (block, ranged) in pairs.chunks(64).zip(&c.levels.ranged) {
                text += &if *ranged {
                    format!("G\t{}\n", joined(block.iter().flat_map(|(low, high)| [low, high]), "\t"))
                } else {
                    format!("B\t{}\n", joined(block.iter().map(|(low, _)| low), "\t"))
                };
            }
        }
        text += &self.marks.iter().map(|mark| format!("N\t{}\n", joined(mark, "\t"))).collect::<String>();
        (text + "E\n").into_bytes()
    }
}
