//! Runs a program on texts, some at a time, each within a time; and the grammar of what `smooth` prints.
use std::{
    io::{Read, Write},
    process::{Command, Stdio},
    thread,
    time::{Duration, Instant},
};

/// How a program ended on a text. Exit status None: by a signal.
#[derive(Debug, PartialEq)]
pub enum Ending {
    Ended { status: Option<i32>, printed: Vec<u8>, complained: bool },
    Late,
}

/// More than `smooth` prints: 3,000 lines T, 3 lines K and a picture of 32 by 32 have fewer than 136,269 bytes.
const MOST: u64 = 1 << 18;

/// Runs the program with the text as standard input. It may leave its input unread. It is killed when its time is over, also where it prints much more than MOST:
/// nothing is read from it then.
pub fn run(program: &str, text: &[u8], limit: Duration) -> Ending {
    let mut command = Command::new(program);
    let command = command.stdin(Stdio::piped()).stdout(Stdio::piped()).stderr(Stdio::piped());
    let began = Instant::now();
    let mut child = command.spawn().unwrap_or_else(|e| panic!("{program}: {e}"));
    let mut input = child.stdin.take().expect("piped");
    thread::scope(|scope| {
        let mut feed = move || drop(input.write_all(text)); // an error: it has ended
        if text.len() > 32_768 {
            scope.spawn(feed);
        } else {
            feed();
            drop(feed);
        }
        let mut output = child.stdout.take().expect("piped");
        let reader = scope.spawn(move || {
            let mut printed = vec![];
            output.by_ref().take(MOST).read_to_end(&mut printed).expect("its output");
            (output, printed)
        });
        let status = loop {
            match child.try_wait().expect("its status") {
                Some(status) => break status,
                None if began.elapsed() > limit => {
                    let _ = child.kill();
                    let _ = child.wait();
                    return Ending::Late;
                }
                None => thread::sleep(Duration::from_micros(150)),
            }
        };
        let (_, printed) = reader.join().expect("a reader");
        let complained = child.stderr.take().expect("piped").read(&mut [0]).expect("its complaints") > 0;
        Ending::Ended { status: status.code(), printed, complained }
    })
}

/// The same, up to three times where it is late: another program on the machine may have had the time.
pub fn run_patiently(program: &str, text: &[u8], limit: Duration) -> Ending {
    (0..3).map(|_| run(program, text, limit)).find(|ending| *ending != Ending::Late).unwrap_or(Ending::Late)
}

/// The answers for all items in their order, worked out by some threads.
pub fn answers<T: Sync, R: Send>(items: &[T], threads: usize, answer: impl Fn(&T) -> R + Sync) -> Vec<R> {
    let next = std::sync::atomic::AtomicUsize::new(0);
    let work = || {
        let mut own = vec![];
        loop {
            let i = next.fetch_add(1, std::sync::atomic::Ordering::Relaxed);
            match items.get(i) {
                Some(item) => own.push((i, answer(item))),
                None => return own,
            }
        }
    };
    let mut all: Vec<(usize, R)> = thread::scope(|scope| {
        let workers: Vec<_> = (0..threads).map(|_| scope.spawn(work)).collect();
        workers.into_iter().flat_map(|worker| worker.join().expect("a worker")).collect()
    });
    all.sort_by_key(|(i, _)| *i);
    all.into_iter().map(|(_, r)| r).collect()
}

/// A number as `smooth` prints it.
fn number(field: &str) -> Option<u32> {
    let plain =
        !field.is_empty() && field.bytes().all(|b| b.is_ascii_digit()) && (field == "0" || !field.starts_with('0'));
    if plain { field.parse().ok() } else { None }
}

/// Whether this is one refusal that `smooth` can give; or the totals of its runs, the numbers of one or three channels, and one complete picture.
pub fn well_formed(printed: &[u8]) -> bool {
    let Some(text) = std::str::from_utf8(printed).ok().and_then(|text| text.strip_suffix('\n')) else { return false };
    let lines: Vec<Vec<&str>> = text.split('\n').map(|line| line.split('\t').collect()).collect();
    if let ["X", refusal, line] = lines[0][..] {
        return match (number(refusal), number(line)) {
            (Some(1..=7 | 14 | 17 | 18), Some(line)) => line > 0 && lines.len() == 1,
            (Some(10), Some(0)) => lines.len() == 1,
            _ => false,
        };
    }
    let (totals, rest) = lines.split_at(lines.iter().take_while(|line| line[0] == "T").count());
    let (clipped, picture) = rest.split_at(rest.iter().take_while(|line| line[0] == "K").count());
    // at most 32 x 32 coefficients
    let kept = |(c, line): (usize, &Vec<&str>)| match line[1..] {
        [channel, moved] => number(channel) == Some(c as u32) && number(moved).is_some_and(|n| n <= 1024),
        _ => false,
    };
    matches!(clipped.len(), 1 | 3)
        && are_totals(totals, clipped.len())
        && clipped.iter().enumerate().all(kept)
        && is_picture(picture)
}

/// The channel of each run's start rises, and within a run the step does, from 1 by 1.
fn are_totals(lines: &[Vec<&str>], channels: usize) -> bool {
    let hex = |word: &str| word.len() == 16 && word.bytes().all(|b| matches!(b, b'0'..=b'9' | b'a'..=b'f'));
    let mut last = None;
    lines.iter().all(|line| {
        let &[_, channel, step, first, second] = &line[..] else { return false };
        let (Some(channel), Some(step)) = (number(channel), number(step)) else { return false };
        let follows = match last.replace((channel, step)) {
            Some((before, steps)) if before == channel => step == steps + 1,
            Some((before, _)) => before < channel && step == 1,
            None => step == 1,
        };
        follows && (channel as usize) < channels && step <= 1000 && hex(first) && hex(second)
    })
}

fn is_picture(lines: &[Vec<&str>]) -> bool {
    let pixel = |p: &&str| p.len() == 6 && p.bytes().all(|b| matches!(b, b'0'..=b'9' | b'a'..=b'f'));
    let Some(["I", w, h]) = lines.first().map(|line| &line[..]) else { return false };
    let (Some(w @ 1..=32), Some(h @ 1..=32)) = (number(w), number(h)) else { return false };
    let row = |line: &Vec<&str>| line[0] == "R" && line.len() == w as usize + 1 && line[1..].iter().all(pixel);
    lines.len() == h as usize + 1 && lines[1..].iter().all(row)
}

#[cfg(test)]
mod tests {
    use super::*;

    #[test]
    fn forms() {
        let good = [
            "K\t0\t0\nI\t2\t1\nR\t818181\t818181\n",
            "K\t0\t64\nK\t1\t0\nK\t2\t1024\nI\t2\t1\nR\t818181\t818181\n",
            "T\t0\t1\t0000000000000000\t7ff0000000000000\nK\t0\t0\nI\t1\t1\nR\t818181\n",
            "T\t0\t1\t0000000000000000\t7ff8000000000000\nT\t0\t2\t0000000000000000\t3ff0000000000000\nT\t2\t1\t3ff0000000000000\t4000000000000000\n\
             K\t0\t0\nK\t1\t0\nK\t2\t1\nI\t1\t1\nR\t818181\n",
            "X\t7\t1\n",
            "X\t1\t54\n",
            "X\t10\t0\n",
            "K\t0\t0\nI\t1\t2\nR\t0a0b0c\nR\t000000\n",
        ];
        let bad = [
            "",
            "\n",
            "X\t7\t1",
            "X\t7\t1\n\n",
            "X\t7\t1\nX\t7\t1\n",
            "X\t8\t0\n",
            "X\t10\t1\n",
            "X\t7\t0\n",
            "X\t07\t1\n",
            "X\t7\t+1\n",
            "X 7 1\n",
            "T\t0\t1\t0000000000000000\t0000000000000000\nX\t10\t0\n",
            "K\t0\t0\nT\t0\t1\t0000000000000000\t0000000000000000\nI\t1\t1\nR\t818181\n",
            "T\t0\t0\t0000000000000000\t0000000000000000\nK\t0\t0\nI\t1\t1\nR\t818181\n",
            "T\t0\t2\t0000000000000000\t0000000000000000\nK\t0\t0\nI\t1\t1\nR\t818181\n",
            "T\t1\t1\t0000000000000000\t0000000000000000\nK\t0\t0\nI\t1\t1\nR\t818181\n",
            "T\t0\t1\t0000000000000000\t000000000000000\nK\t0\t0\nI\t1\t1\nR\t818181\n",
            "T\t0\t1\t0000000000000000\t000000000000000A\nK\t0\t0\nI\t1\t1\nR\t818181\n",
            "T\t0\t1\t0000000000000000\nK\t0\t0\nI\t1\t1\nR\t818181\n",
            "T\t0\t1\t0000000000000000\t0000000000000000\nI\t1\t1\nR\t818181\n",
            "K\t0\t0\n",
            "K\t0\t0\nX\t10\t0\n",
            "I\t2\t1\nR\t818181\t818181\n",
            "I\t2\t1\nR\t818181\t818181\nK\t0\t0\n",
            "K\t1\t0\nI\t2\t1\nR\t818181\t818181\n",
            "K\t0\t1025\nI\t2\t1\nR\t818181\t818181\n",
            "K\t0\t00\nI\t2\t1\nR\t818181\t818181\n",
            "K\t0\nI\t2\t1\nR\t818181\t818181\n",
            "K\t0\t0\nK\t1\t0\nI\t2\t1\nR\t818181\t818181\n",
            "K\t0\t0\nK\t2\t0\nK\t1\t0\nI\t2\t1\nR\t818181\t818181\n",
            "K\t0\t0\nI\t2\t1\n",
            "K\t0\t0\nI\t2\t1\nR\t818181\n",
            "K\t0\t0\nI\t2\t1\nR\t818181\t818181",
            "K\t0\t0\nI\t2\t1\nR\t818181\t81818\n",
            "K\t0\t0\nI\t2\t1\nR\t818181\t81818A\n",
            "K\t0\t0\nI\t2\t1\nR\t818181\t818181\nR\t818181\t818181\n",
            "K\t0\t0\nI\t2\t1\nR\t818181\t818181\nX\t7\t1\n",
            "K\t0\t0\nI\t0\t0\n",
            "K\t0\t0\nI\t1\t33\n",
        ];
        assert!(good.iter().all(|text| well_formed(text.as_bytes())));
        for text in bad {
            assert!(!well_formed(text.as_bytes()), "{text}");
        }
        assert!(!well_formed(b"X\t7\t\xff\n"));
    }

    #[test]
    fn endings() {
        let second = Duration::from_secs(1);
        let ended =
            |status, printed: &[u8]| Ending::Ended { status: Some(status), printed: printed.into(), complained: false };
        assert_eq!(run("cat", b"abc", second), ended(0, b"abc"));
        let long: Vec<u8> = (0..136_269).map(|i| i as u8).collect();
        assert_eq!(run("cat", &long, second), ended(0, &long));
        assert_eq!(run("false", &[0; 1_000_000], second), ended(1, b""));
        assert_eq!(run("yes", b"", second), Ending::Late);
    }

    #[test]
    fn answers_in_order() {
        let items: Vec<usize> = (0..1000).collect();
        assert_eq!(answers(&items, 2, |i| i * i), items.iter().map(|i| i * i).collect::<Vec<_>>());
    }
}
