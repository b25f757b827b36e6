//! Two sheet texts stitched in time, as document 02 says (M-107, with what M-105, M-108 and M-110 add). Nothing here is taken from the proved code: each text is
//! judged by the oracle's own reader, and its lines are copied.
use crate::sheet::{Channel, Levels, MOST, Sheet, joined, read};

/// The number of a refusal, the text that it is about (1 left, 2 right, 0 neither), and the line there.
pub type Refused = (u32, u32, usize);

const SIZE: Refused = (2, 0, 0);
const LENGTH: Refused = (8, 0, 0);
const SEAM: Refused = (16, 0, 0);

/// The stitching call: nothing is written where it is refused. "The output buffer must have the exact length that a measuring call gives, otherwise 8".
pub fn stitch(left: &[u8], right: &[u8], out: &mut [u8]) -> Result<(), Refused> {
    let text = stitched(left, right)?;
    if out.len() != text.len() {
        return Err(LENGTH);
    }
    out.copy_from_slice(&text);
    Ok(())
}

/// The measuring call.
pub fn measure(left: &[u8], right: &[u8]) -> Result<usize, Refused> {
    stitched(left, right).map(|text| text.len())
}

/// The output. "16 "seam", any of those needs unmet, after the faults of the left text and then of the right; 2 if the summed width passes 512, after 16".
pub fn stitched(left: &[u8], right: &[u8]) -> Result<Vec<u8>, Refused> {
    let (one, other) = judged(left, right)?;
    Ok(copied([left, right], [&one, &other]))
}

/// Both sheets, where they can be stitched. "two sheet texts, valid at limit 1,000", by the library's limit of sides.
pub fn judged(left: &[u8], right: &[u8]) -> Result<(Sheet, Sheet), Refused> {
    let one = read(left, MOST).map_err(|(number, line)| (number, 1, line))?;
    let other = read(right, MOST).map_err(|(number, line)| (number, 2, line))?;
    if !fits(&one, &other) {
        return Err(SEAM);
    }
    if one.w + other.w > MOST.side {
        return Err(SIZE);
    }
    Ok((one, other))
}

/// "of equal full and own heights, channels, mode, settings, weights, iterations, factors and tables. Weights compare by their bits, settings by meaning"; "It also
/// needs equal picture heights, each channel's w × across equal to W on both sides, and a left picture as wide as its W."
fn fits(one: &Sheet, other: &Sheet) -> bool {
    let channels = one.channels.len();
    channels == other.channels.len()
        && one.h == other.h
        && one.joint == other.joint
        && one.rounds() == other.rounds()
        && one.reorders() == other.reorders()
        // "Stitching compares the counts of existing channels" (M-108)
        && one.holds()[..channels] == other.holds()[..channels]
        && one.weights().zip(other.weights()).all(|(a, b)| a.value().to_bits() == b.value().to_bits())
        && one.counts == other.counts
        && one.channels.iter().zip(&other.channels).all(|(a, b)| alike(a, b))
        && one.picture_h == other.picture_h
        && [one, other].into_iter().all(|sheet| sheet.channels.iter().all(|own| own.w * own.across == sheet.w))
        && one.picture_w == one.w
}

fn alike(a: &Channel, b: &Channel) -> bool {
    (a.h, a.across, a.down) == (b.h, b.across, b.down) && a.table == b.table
}

/// "one text whose full, own and picture widths are the sums, the left sheet's blocks first in each row of blocks. `B` and `G` lines are copied as written." "Stitching
/// keeps the marks of both sheets, the left's lines first, the right's block columns moved by the left's number in that channel" (M-110).
fn copied([left, right]: [&[u8]; 2], [one, other]: [&Sheet; 2]) -> Vec<u8> {
    let [mut lefts, mut rights] = [left, right].map(|text| text.split_inclusive(|b| *b == b'\n').peekable());
    let mut out = vec![];
    let header = lefts.next().expect("a line S");
    out.extend(with_fields(header, &[(1, one.w + other.w), (3, one.picture_w + other.picture_w)]));
    while let Some(setting) = lefts.next_if(|line| !line.starts_with(b"C")) {
        out.extend(setting);
    }
    while rights.next_if(|line| !line.starts_with(b"C")).is_some() {}
    for (a, b) in one.channels.iter().zip(&other.channels) {
        out.extend(with_fields(lefts.next().expect("a line C"), &[(1, a.w + b.w)]));
        rights.next().expect("a line C");
        for _ in 0..a.h / 8 {
            lefts.by_ref().take(a.w as usize / 8).for_each(|block| out.extend(block));
            rights.by_ref().take(b.w as usize / 8).for_each(|block| out.extend(block));
        }
    }
    while let Some(mark) = lefts.next_if(|line| line.starts_with(b"N")) {
        out.extend(mark);
    }
    for [c, row, column] in &other.marks {
        let moved = column + one.channels[*c as usize].w / 8;
        out.extend(format!("N\t{c}\t{row}\t{moved}\n").into_bytes());
    }
    out.extend(lefts.next().expect("a line E"));
    assert_eq!(lefts.next(), None, "all lines are copied");
    out
}

/// A line with other numbers at some fields, the tag being field 0.
fn with_fields(line: &[u8], numbers: &[(usize, u32)]) -> Vec<u8> {
    let line = std::str::from_utf8(line).expect("a legal line");
    let field = |(at, field): (usize, &str)| {
        numbers.iter().find(|(due, _)| *due == at).map_or(field.to_string(), |(_, number)| number.to_string())
    };
    joined(line.split('\t').enumerate().map(field), "\t").into_bytes()
}

/// The sheet that reading the output has to give: "exactly the two sheets' blocks at their places".
pub fn side_by_side(one: &Sheet, other: &Sheet) -> Sheet {
    let channels = one.channels.iter().zip(&other.channels).map(|(a, b)| beside(a, b));
    let moved = |[c, row, column]: &[u32; 3]| [*c, *row, column + one.channels[*c as usize].w / 8];
    Sheet {
        w: one.w + other.w,
        picture_w: one.picture_w + other.picture_w,
        channels: channels.collect(),
        marks: one.marks.iter().copied().chain(other.marks.iter().map(moved)).collect(),
        ..one.clone()
    }
}

/// Block by block, each taken from where it stands in its own sheet.
fn beside(a: &Channel, b: &Channel) -> Channel {
    let [mine, theirs] = [a.w, b.w].map(|w| w as usize / 8);
    let mut levels = Levels::default();
    for row in 0..a.h as usize / 8 {
        for column in 0..mine + theirs {
            let (from, block) = if column < mine {
                (&a.levels, row * mine + column)
            } else {
                (&b.levels, row * theirs + column - mine)
            };
            levels.lows.extend(&from.lows[64 * block..][..64]);
            levels.highs.extend(&from.highs[64 * block..][..64]);
            levels.ranged.push(from.ranged[block]);
        }
    }
    Channel { w: a.w + b.w, levels, ..a.clone() }
}

#[cfg(test)]
mod tests {
    use super::*;
    use crate::{
        pairs::{NEEDS, any, fitting, fixed, texts, wide},
        random::Random,
        sheet::{Limits, Reader},
    };

    #[test]
    fn fixed_pairs() {
        for (name, [left, right], due) in fixed() {
            assert_eq!(stitched(&left, &right).err(), due, "{name}");
        }
    }

    /// What is copied is the text of the two sheets side by side; it reads as that sheet, by either reader, and it can be stitched again if its picture is whole.
    #[test]
    fn copied_is_written() {
        let mut r = Random::new(1);
        for i in 0..2000 {
            let (_, [left, right]) = any(&mut r, i, 1000);
            let Ok((one, other)) = judged(&left, &right) else { continue };
            let (text, sheet) = (stitched(&left, &right).expect("judged"), side_by_side(&one, &other));
            assert_eq!(text, sheet.text());
            let read = read(&text, MOST).expect("legal");
            assert_eq!(read, sheet);
            let seen = |sheet: &Sheet| sheet.seen_by(Reader::Partner);
            assert_eq!(seen(&read), Sheet { marks: read.marks.clone(), ..side_by_side(&seen(&one), &seen(&other)) });
            let again = stitched(&text, &right).err();
            let due = if other.picture_w < other.w { Some(SEAM) } else { (sheet.w + other.w > 512).then_some(SIZE) };
            assert_eq!(again, due);
        }
    }

    /// Pairs made to fit do, and with one need unmet they don't; the texts alone are legal.
    #[test]
    fn each_need() {
        let mut r = Random::new(2);
        for _ in 0..200 {
            let [left, right] = texts(&fitting(&mut r, 9));
            assert_eq!(stitched(&left, &right).err(), None);
            for (need, lack) in NEEDS {
                let mut pair = fitting(&mut r, 9);
                lack(&mut r, &mut pair);
                let [left, right] = texts(&pair);
                assert_eq!(judged(&left, &right).err(), Some(SEAM), "{need}");
            }
            let pair = wide(&mut r);
            let [left, right] = texts(&pair);
            assert_eq!(stitched(&left, &right).is_err(), pair[0].w + pair[1].w > 512);
        }
    }

    fn shown(text: &[u8]) -> String {
        let short = |line: &str| match line.split_once("\t8\t8\t8") {
            Some((start, _)) if line.starts_with('C') => format!("{start} .."),
            _ if line.starts_with(['B', 'G']) => line.split('\t').take(3).collect::<Vec<_>>().join(" ") + " ..",
            _ => line.into(),
        };
        let text = String::from_utf8_lossy(text);
        joined(text.lines().map(short), "\n").replace('\t', " ")
    }

    /// Written down by hand: the left's spelling and its settings; sums; rows of blocks; marks moved by the left's columns of their channel.
    #[test]
    fn outputs_by_hand() {
        let of = |name: &str| {
            let (_, [left, right], _) = fixed().into_iter().find(|pair| pair.0 == name).expect("a pair");
            shown(&stitched(&left, &right).expect("they fit"))
        };
        let (head, zeros) = ("S 16 8 16 1 1 s 0 0 0", "w0 w0 w0 w0 w0 w0");
        let rest = "C 16 8 1 1 ..\nB 1 0 ..\nB 1 0 ..\nE";
        assert_eq!(of("a sheet with itself"), format!("{head} {zeros}\n{rest}"));
        assert_eq!(of("weights by their bits"), format!("{head} w1 h437f0000 w0 w0 w0 w0\n{rest}"));
        assert_eq!(of("F t and none"), format!("{head} {zeros}\nF t\n{rest}"));
        assert_eq!(of("none and F t"), format!("{head} {zeros}\n{rest}"));
        assert_eq!(of("all settings, said and unsaid"), format!("{head} {zeros}\nF t\nA m\nH 0 0 0\n{rest}"));
        assert_eq!(of("H of one channel, spare counts"), format!("S 16 8 16 1 1 s 5 6 7 {zeros}\nH 5 6 7\n{rest}"));
        assert_eq!(of("no H and spare counts"), format!("S 16 8 16 1 1 s 5 6 7 {zeros}\n{rest}"));
        assert_eq!(of("the right picture narrower"), format!("S 16 8 9 1 1 s 0 0 0 {zeros}\n{rest}"));
        assert_eq!(
            of("marks of both, other columns by channel"),
            format!(
                "S 32 8 32 1 3 j 5 6 7 {zeros}\nC 32 8 1 1 ..\nB 0 0 ..\nB 1 1 ..\nB 0 0 ..\nB 1 1 ..\n{}\
                 N 1 0 0\nN 0 0 1\nN 2 0 0\nN 1 0 1\nN 0 0 3\nN 2 0 1\nE",
                "C 16 8 2 1 ..\nB 0 0 ..\nB 0 0 ..\n".repeat(2)
            )
        );
    }

    /// Two rows of blocks of unequal lengths: the left's first in each row.
    #[test]
    fn rows_of_blocks() {
        let mut pair = fitting(&mut Random::new(1), 0);
        for (sheet, (w, first)) in pair.iter_mut().zip([(8, 10), (16, 20)]) {
            (sheet.w, sheet.picture_w, sheet.h, sheet.picture_h) = (w, w, 16, 16);
            let own = &mut sheet.channels[0];
            (own.w, own.h, own.across, own.down) = (w, 16, 1, 1);
            own.levels = (0..16 * w).map(|i| first + i as i32 / 64).collect();
            sheet.channels.truncate(1);
            (sheet.marks, sheet.hold) = (vec![[0, 1, 0]], None);
        }
        let [left, right] = texts(&pair);
        let text = String::from_utf8(stitched(&left, &right).expect("they fit")).expect("text");
        let firsts: Vec<&str> = text.lines().filter_map(|line| line.strip_prefix("B\t")?.split('\t').next()).collect();
        assert_eq!(firsts, ["10", "20", "21", "11", "22", "23"]);
        let marks: Vec<&str> = text.lines().filter(|line| line.starts_with('N')).collect();
        assert_eq!(marks, ["N\t0\t1\t0", "N\t0\t1\t1"]);
    }

    /// "otherwise 8; a refusal leaves it unchanged"; 8 is the last fault.
    #[test]
    fn lengths() {
        let [left, right] = texts(&fitting(&mut Random::new(3), 3));
        let length = measure(&left, &right).expect("they fit");
        for more in [-1, 1, 0] {
            let mut out = vec![7; length.saturating_add_signed(more)];
            let answer = stitch(&left, &right, &mut out);
            assert_eq!(answer.err(), (more != 0).then_some(LENGTH));
            assert_eq!(out.iter().all(|b| *b == 7), more != 0);
        }
        assert_eq!(stitch(&left[1..], &right, &mut []).err(), Some((1, 1, 1)));
        // the length can be smaller than both together, and larger than that but for the lines that stand once
        let (_, [left, right], _) = fixed().into_iter().find(|pair| pair.0 == "from 8 and 504").expect("a pair");
        let lines = |text: &[u8]| text.split(|b| *b == b'\n').take(2).map(|line| line.len() + 1).sum::<usize>();
        let (one, all) = (left.len() + right.len(), measure(&left, &right).expect("they fit"));
        assert!(all < one && all > one - lines(&right) - 2);
    }

    /// Valid at 1,000 iterations and side 512, whatever a caller's own limits are.
    #[test]
    fn limits() {
        let mut pair = fitting(&mut Random::new(5), 0);
        pair.iter_mut().for_each(|sheet| (sheet.counts, sheet.hold) = ([1000; 3], None));
        let [left, right] = texts(&pair);
        assert!(read(&left, Limits { iterations: 999, ..MOST }).is_err());
        assert!(stitched(&left, &right).is_ok());
        pair[1].counts[1] = 1001;
        let [left, right] = texts(&pair);
        assert_eq!(stitched(&left, &right).err(), Some((2, 2, 1)));
    }
}
