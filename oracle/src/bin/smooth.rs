//! What the program `smooth` has to print, by the published Rust.
//!
//!     smooth < FILE.tsv                               prints it
//!     smooth --compare PROGRAM [N [SEED [STEPS]]]     runs PROGRAM on N texts (1,000) with at most STEPS iterations (5) and compares; where all pairs of lines
//!                                                     G are equal, also with what it prints for lines B
//!     smooth --pack N SEED DIR [STEPS]                DIR/texts, each text after its length in five digits, and DIR/answers
use oracle::{
    picture::smooth,
    program::{Ending, answers, run},
    sheet::{SMOOTH, read},
    tally::Tally,
    texts,
};
use std::{
    io::{Read, stdin},
    path::Path,
    process::ExitCode,
    time::Duration,
};

fn main() -> ExitCode {
    let args: Vec<String> = std::env::args().skip(1).collect();
    let number = |i: usize, default: u64| args.get(i).map_or(default, |a| a.parse().expect("a whole number"));
    match args.first().map(String::as_str) {
        Some("--compare") => {
            let program = args.get(1).expect("a program");
            let long = texts::long().into_iter().map(|(text, _)| ("long text", text));
            let texts = texts::all(number(3, 1), number(2, 1000), 32, number(4, 5) as u32);
            let largest = std::iter::once(("largest output", texts::largest().text()));
            return compare(program, largest.chain(long).chain(texts));
        }
        Some("--pack") => {
            let folder = Path::new(args.get(3).expect("a folder"));
            let texts = texts::all(number(2, 1), number(1, 0), 32, number(4, 5) as u32);
            texts::pack(folder, &texts, texts.iter().map(|(_, text)| smooth(text)));
        }
        _ => {
            let mut text = vec![];
            stdin().read_to_end(&mut text).expect("standard input");
            print!("{}", smooth(&text));
        }
    }
    ExitCode::SUCCESS
}

/// Two texts at a time. A text whose counts were damaged can ask for 1,000 steps, hence the long time.
fn compare(program: &str, texts: impl Iterator<Item = (&'static str, Vec<u8>)>) -> ExitCode {
    let mut tally = Tally::default();
    let texts: Vec<_> = texts.collect();
    let minute = Duration::from_secs(60);
    for part in texts.chunks(1_000) {
        let ended = answers(part, 2, |(_, text)| {
            let plain = read(text, SMOOTH).ok().and_then(|sheet| sheet.plain());
            (run(program, text, minute), smooth(text), plain.map(|sheet| run(program, &sheet.text(), minute)))
        });
        for ((kind, text), (ending, due, plain)) in part.iter().zip(ended) {
            if let Some(plain) = plain {
                let shown = || String::from_utf8_lossy(text).into_owned();
                tally.count_in("equal pairs, beside lines B", plain == ending, shown);
            }
            let equal = matches!(&ending, Ending::Ended { printed, .. } if printed == due.as_bytes());
            let shown = || match &ending {
                Ending::Ended { printed, .. } => String::from_utf8_lossy(printed).into_owned(),
                Ending::Late => "nothing within a minute\n".into(),
            };
            tally
                .count_in(kind, equal, || format!("due {due}printed {}for {}", shown(), String::from_utf8_lossy(text)));
        }
    }
    tally.close()
}
