//! Expected values are document 01's, or come from doing the same another way.
use smoother::*;

fn tabs(line: &str) -> String {
    line.replace(' ', "\t") + "\n"
}

fn channel_lines(
    w: u32,
    h: u32,
    across: u32,
    down: u32,
    q: impl Fn(u32) -> u32,
    level: impl Fn(u32, u32) -> i32,
) -> String {
    let table: String = (0..64).map(|i| format!(" {}", q(i))).collect();
    let block = |k: u32| (0..64).map(|i| format!(" {}", level(k, i))).collect::<String>();
    let blocks: String = (0..w * h / 64).map(|k| tabs(&format!("B{}", block(k)))).collect();
    tabs(&format!("C {w} {h} {across} {down}{table}")) + &blocks
}

/// Document 01's whole example.
fn whole() -> String {
    let level = |_, i| i32::from(i == 0);
    tabs("S 8 8 2 1 1 s 0 0 0 w0 w0 w0 w0 w0 w0") + &channel_lines(8, 8, 1, 1, |_| 8, level) + "E\n"
}

/// Three channels, the last two with factors.
fn joint(n: u32, data: &str) -> String {
    let level = |k, i| [3, -7, 2, 0, 0, 1][((k * 5 + i * 7) % 6) as usize] * i32::from(i < 20);
    tabs(&format!("S 16 16 13 9 3 j {n} 0 0 h3e99999a w1 w1 {data}"))
        + &channel_lines(16, 16, 1, 1, |i| 3 + i, level)
        + &channel_lines(8, 8, 2, 2, |i| 5 + i, level)
        + &channel_lines(8, 16, 2, 1, |i| 9 + 2 * i, level)
        + "E\n"
}

fn sheet_of(text: &str) -> Sheet {
    read(text.as_bytes(), Limits::default()).expect("legal")
}

/// The joint run, started.
fn started(sheet: &Sheet) -> (Run, Buffers) {
    let mut run = sheet.joint_run();
    let mut b = run.buffers();
    assert_eq!(start(&mut run, sheet.levels(), &sheet.tables, &mut b), Ok(Outcome::Done));
    (run, b)
}

fn bits(b: &Buffers) -> Vec<Vec<u32>> {
    let all = [&b.plane, &b.prior, &b.gradient, &b.across, &b.down, &b.saved];
    all.map(|values| values.iter().map(|x| x.to_bits()).collect()).into()
}

/// One step's calls, in order.
fn step(channels: u32) -> Vec<(Job, u32)> {
    let each = |job| (0..channels).map(move |c| (job, c));
    let first = each(Job::Push).chain(each(Job::Data)).chain([(Job::Blend, 0)]);
    first.chain(each(Job::Move)).chain(each(Job::Project)).collect()
}

/// Makes a call that has to be refused and has to leave everything as it was.
fn refused<T>(
    why: Refusal,
    run: &mut Run,
    b: &mut Buffers,
    f: impl FnOnce(&mut Run, &mut Buffers) -> Result<T, Error>,
) {
    let (run_before, before) = (*run, bits(b));
    assert_eq!(f(run, b).err(), Some(why.into()));
    assert_eq!((*run, bits(b)), (run_before, before));
}

#[test]
fn whole_example_read_and_started() {
    let text = whole();
    assert_eq!(measure(text.as_bytes(), Limits::default()), Ok(Lengths { levels: 64, tables: 64 }));
    let sheet = sheet_of(&text);
    let mut levels = vec![0; 64];
    levels[0] = 1;
    let own = Own { width: 8, height: 8, across: 1, down: 1 };
    let due = Sheet {
        width: 8,
        height: 8,
        picture_width: 2,
        picture_height: 1,
        count: 1,
        joint: false,
        iterations: [0; 3],
        smoothing: [0.0; 3],
        data: [0.0; 3],
        rounding: Rounding::Truncate,
        reorder: Reorder::Each,
        held: [0; 3],
        own: [own, Own::default(), Own::default()],
        lows: levels.clone(),
        highs: levels,
        tables: vec![8; 64],
    };
    assert_eq!(sheet, due);
    for mut run in [sheet.joint_run(), sheet.separate_run(0)] {
        let mut b = run.buffers();
        assert_eq!(start(&mut run, sheet.levels(), &sheet.tables, &mut b), Ok(Outcome::Done));
        assert_eq!(b.plane, [1.0 - 2.0_f32.powi(-24); 64]);
        assert_eq!(b.prior, b.plane);
        let mut saved = [0.0; 64];
        saved[0] = 8.0; // level × quantiser
        assert_eq!(b.saved, saved);
    }
}

#[test]
fn start_reordered_repeatedly_and_once() {
    // line A, in both modes: v in the left half of even rows, or of all rows
    let level = |k, i| i32::from(k == 0 && i == 0);
    for (line, reorder, step) in [("", Reorder::Each, 2), ("A\tm\n", Reorder::Each, 2), ("A\to\n", Reorder::Once, 1)] {
        for mode in ["j", "s"] {
            let header = tabs(&format!("S 16 8 16 8 1 {mode} 0 0 0 w0 w0 w0 w0 w0 w0"));
            let sheet = sheet_of(&(header + line + &channel_lines(16, 8, 1, 1, |_| 8, level) + "E\n"));
            assert_eq!((sheet.reorder, sheet.numbers()[28]), (reorder, reorder as u32));
            let due =
                |i: usize| if (i / 16).is_multiple_of(step) && i % 16 < 8 { 1.0 - 2.0_f32.powi(-24) } else { 0.0 };
            let due: Vec<f32> = (0..128).map(due).collect();
            assert_eq!(started(&sheet).1.plane, due);
            assert_eq!(sheet.solve().expect("legal"), Some(Solved { planes: due, totals: vec![], clipped: vec![0] }));
        }
    }
}

/// The text with its first block written as a line `G` that begins with these fields and goes on with zeros.
fn ranged(text: &str, fields: &str) -> String {
    let (before, block) = text.split_once("\nB").expect("a block");
    let zeros = " 0".repeat(128 - fields.split(' ').count());
    before.to_owned() + "\n" + &tabs(&format!("G {fields}{zeros}")) + block.split_once('\n').expect("a line").1
}

/// Document 02, M-105: 64 pairs in place of 64 levels; start has the exact half sum; 14 after 5 on the same pair and before the next pair.
#[test]
fn levels_within_ranges() {
    let sheet = sheet_of(&ranged(&whole(), "1 4"));
    assert_eq!((sheet.lows[0], sheet.highs[0], sheet.lows.len(), sheet.highs.len()), (1, 4, 64, 64));
    let (_, b) = started(&sheet);
    assert_eq!(b.saved[0], 20.0); // 2.5 × 8
    assert!(b.plane.iter().all(|x| (*x - 2.5).abs() < 1e-6));
    let fault = |refusal, line| Some(Fault { error: Error::Refused(refusal), line });
    for (fields, due) in [
        ("2 2", None),
        ("2 1", fault(Refusal::Range, 3)),
        ("2 1 x 0", fault(Refusal::Range, 3)),
        ("2 1 2048 2048", fault(Refusal::Range, 3)),
        ("2048 2048 2 1", fault(Refusal::Level, 3)),
        ("5 -2048", fault(Refusal::Level, 3)),
        ("5 -0", fault(Refusal::Form, 3)),
    ] {
        assert_eq!(read(ranged(&whole(), fields).as_bytes(), Limits::default()).err(), due, "{fields}");
    }
}

/// "Equal pairs must give the planes of the `B` line."
#[test]
fn equal_pairs() {
    let text = joint(3, "w1 w1 w1");
    let pairs = |line: &str| match line.strip_prefix("B\t") {
        Some(levels) => "G".to_owned() + &levels.split('\t').map(|d| format!("\t{d}\t{d}")).collect::<String>() + "\n",
        None => line.to_owned() + "\n",
    };
    let (plain, ranges) = (sheet_of(&text), sheet_of(&text.lines().map(pairs).collect::<String>()));
    assert_eq!(plain, ranges);
    assert_eq!(plain.solve(), ranges.solve());
    // with wider ranges the last project clips fewer coefficients
    let mut wide = ranges.clone();
    wide.lows.iter_mut().for_each(|low| *low -= 9);
    wide.highs.iter_mut().for_each(|high| *high += 9);
    let clipped = |sheet: &Sheet| sheet.solve().expect("legal").expect("planes").clipped.iter().sum::<u32>();
    assert!(clipped(&wide) < clipped(&plain));
}

#[test]
fn texts_refused() {
    let edit = |old: &str, new: &str| whole().replacen(&tabs(old).replace('\n', ""), &tabs(new).replace('\n', ""), 1);
    let fault = |refusal, line| Some(Fault { error: Error::Refused(refusal), line });
    let cases = [
        (edit("S 8 8", "S 8 x"), 512, fault(Refusal::Form, 1)),
        (edit("S 8 8", "S 512 8"), 512, None),
        (edit("S 8 8", "S 520 8"), 512, fault(Refusal::Size, 1)),
        (edit("S 8 8", "S 40 8"), 32, fault(Refusal::Size, 1)),
        (whole(), 12, fault(Refusal::Size, 0)),
        (edit("C 8 8 1 1", "C 8 8 5 1"), 512, fault(Refusal::Factor, 2)),
        (edit("1 1 8", "1 1 255"), 512, None),
        (edit("1 1 8", "1 1 256"), 512, fault(Refusal::Table, 2)),
        (edit("B 1", "B -2047"), 512, None),
        (edit("B 1", "B -2048"), 512, fault(Refusal::Level, 3)),
        (edit("w0 w0", "w0 h80000000"), 512, fault(Refusal::Weight, 1)),
        (whole() + "x", 512, fault(Refusal::Cut, 5)),
        (String::new(), 512, fault(Refusal::Cut, 1)),
    ];
    for (text, side, due) in cases {
        let limits = Limits { side, ..Limits::default() };
        assert_eq!(read(text.as_bytes(), limits).err(), due, "{text}");
        assert_eq!(measure(text.as_bytes(), limits).err(), due, "{text}");
    }
}

/// Document 02, M-106: 15 at a count's field, after 1 and 2; a limit above 1,000 before the text.
#[test]
fn iteration_counts_above_the_callers_limit() {
    let counts = |three: &str| whole().replacen("s\t0\t0\t0", &format!("s {three}").replace(' ', "\t"), 1);
    let fault = |refusal, line| Some(Fault { error: Error::Refused(refusal), line });
    let cases = [
        (counts("50 0 50"), 50, None),
        (counts("51 0 0"), 50, fault(Refusal::Page, 1)),
        (counts("51 x 0"), 50, fault(Refusal::Page, 1)),
        (counts("0 0 51"), 50, fault(Refusal::Page, 1)), // spare, as the sheet has one channel
        (counts("x 51 0"), 50, fault(Refusal::Form, 1)),
        (counts("1001 0 0"), 50, fault(Refusal::Size, 1)),
        (counts("1000 1000 1000"), 1000, None),
        (counts("1000 0 0"), 999, fault(Refusal::Page, 1)),
        (counts("0 1 0"), 0, fault(Refusal::Page, 1)),
        (whole(), 0, None),
        (whole(), 1001, fault(Refusal::Size, 0)),
        (whole(), 65_536 + 50, fault(Refusal::Size, 0)),
        ("x".into(), 1001, fault(Refusal::Size, 0)),
        (String::new(), u32::MAX, fault(Refusal::Size, 0)),
    ];
    for (text, iterations, due) in cases {
        let limits = Limits { iterations, ..Limits::default() };
        assert_eq!(read(text.as_bytes(), limits).err(), due, "{text}");
        assert_eq!(measure(text.as_bytes(), limits).err(), due, "{text}");
        assert_eq!(
            read_into(text.as_bytes(), limits, Reader::Staff, &mut [], &mut [], &mut [], &mut []).err(),
            due.or(fault(Refusal::Length, 0))
        );
    }
    let text = counts("50 0 0");
    let page = Limits { iterations: 50, ..Limits::default() };
    assert_eq!(read(text.as_bytes(), page), read(text.as_bytes(), Limits::default()));
}

#[test]
fn reading_into_wrong_lengths() {
    for (n, o, m, k) in [(63, 64, 64, 32), (64, 63, 64, 32), (64, 64, 65, 32), (64, 64, 64, 31), (0, 0, 0, 0)] {
        let (mut lows, mut highs, mut tables, mut header) = (vec![7; n], vec![7; o], vec![7; m], vec![7; k]);
        let due = Err(Fault { error: Refusal::Length.into(), line: 0 });
        let text = whole();
        let said = read_into(
            text.as_bytes(),
            Limits::default(),
            Reader::Staff,
            &mut lows,
            &mut highs,
            &mut tables,
            &mut header,
        );
        assert_eq!(said, due);
        assert!(lows.iter().chain(&highs).all(|x| *x == 7));
        assert!(tables.iter().all(|x| *x == 7) && header.iter().all(|x| *x == 7));
    }
}

#[test]
fn table_of_refusals() {
    let numbers: Vec<u32> = (1..=20).collect();
    assert_eq!(Refusal::ALL.map(Refusal::number).to_vec(), numbers);
    for refusal in Refusal::ALL {
        assert_eq!(Refusal::of_number(refusal.number()), Some(refusal));
    }
    assert_eq!([0, 21, 255].map(Refusal::of_number), [None; 3]);
    let words = [
        "form",
        "size",
        "factor",
        "table",
        "level",
        "weight",
        "cut",
        "length",
        "turn",
        "blown",
        "done",
        "channel",
        "record",
        "range",
        "page",
        "seam",
        "hold",
        "mark",
        "segment",
        "precision",
    ];
    assert_eq!(Refusal::ALL.map(Refusal::word), words);
}

#[test]
fn calls_refused() {
    let sheet = sheet_of(&joint(2, "w0 w1 w2"));
    let (levels, tables) = (sheet.levels(), &sheet.tables);
    let (mut run, mut b) = started(&sheet);
    // 8: one value short, in each call
    let mut short = b.clone();
    short.plane.pop();
    short.saved.pop();
    refused(Refusal::Length, &mut run, &mut short, |run, b| push(run, 0, b));
    refused(Refusal::Length, &mut run, &mut short, |run, b| data(run, 0, levels, tables, b));
    refused(Refusal::Length, &mut run, &mut short, blend);
    refused(Refusal::Length, &mut run, &mut short, |run, b| move_plane(run, 0, b));
    refused(Refusal::Length, &mut run, &mut short, |run, b| {
        project(run, 0, levels, tables, b).map(|said| said.outcome)
    });
    refused(Refusal::Length, &mut run, &mut short, |run, b| start(run, levels, tables, b));
    refused(Refusal::Length, &mut run, &mut b, |run, b| {
        start(run, Levels { lows: &levels.lows[1..], ..levels }, tables, b)
    });
    refused(Refusal::Length, &mut run, &mut b, |run, b| {
        start(run, Levels { highs: &levels.highs[1..], ..levels }, tables, b)
    });
    refused(Refusal::Length, &mut run, &mut b, |run, b| data(run, 0, levels, &tables[1..], b));
    // 4, 5 and 14, in a channel that the call does not name; 4 first, then the first pair with a fault
    let (mut bad, mut bad_tables) = (sheet.highs.clone(), tables.clone());
    *bad.last_mut().expect("some") = 2048;
    *bad_tables.last_mut().expect("some") = 256;
    let beyond = Levels { highs: &bad, ..levels };
    refused(Refusal::Table, &mut run, &mut b, |run, b| data(run, 0, beyond, &bad_tables, b));
    refused(Refusal::Level, &mut run, &mut b, |run, b| data(run, 0, beyond, tables, b));
    refused(Refusal::Level, &mut run, &mut b, |run, b| start(run, beyond, tables, b));
    let mut above = sheet.lows.clone();
    above[1] = levels.highs[1] + 1;
    let both = Levels { lows: &above, highs: &bad };
    refused(Refusal::Range, &mut run, &mut b, |run, b| start(run, both, tables, b));
    refused(Refusal::Range, &mut run, &mut b, |run, b| data(run, 2, both, tables, b));
    above[0] = -2048;
    let earlier = Levels { lows: &above, highs: &bad };
    refused(Refusal::Level, &mut run, &mut b, |run, b| start(run, earlier, tables, b));
    // 12, 9
    refused(Refusal::Channel, &mut run, &mut b, |run, b| push(run, 3, b));
    refused(Refusal::Channel, &mut run, &mut b, |run, b| {
        project(run, u32::MAX, levels, tables, b).map(|said| said.outcome)
    });
    refused(Refusal::Turn, &mut run, &mut b, |run, b| data(run, 0, levels, tables, b));
    refused(Refusal::Turn, &mut run, &mut b, blend);
    assert_eq!(push(&mut run, 1, &mut b), Ok(Outcome::Done));
    assert_eq!(run.channels.map(|c| c.position), [0, 1, 0]);
    refused(Refusal::Turn, &mut run, &mut b, |run, b| push(run, 1, b));
    // 13 before all others
    let legal = run;
    let edits: [fn(&mut Run); 9] = [
        |run| run.w = 12,
        |run| run.h = 520,
        |run| run.n = 1001,
        |run| run.smoothing = -0.0,
        |run| run.count = 2,
        |run| run.channels[2].across = 5,
        |run| run.channels[2].width = 16,
        |run| run.channels[1].mark = true,
        |run| run.channels[1].position = 11,
    ];
    for edit in edits {
        edit(&mut run);
        refused(Refusal::Record, &mut run, &mut b, |run, b| push(run, 3, b));
        refused(Refusal::Record, &mut run, &mut b, |run, b| start(run, levels, tables, b));
        run = legal;
    }
    // 11 at the end
    assert_eq!(start(&mut run, levels, tables, &mut b), Ok(Outcome::Done));
    for (job, c) in step(3).repeat(2) {
        assert_eq!(call(&mut run, job, c, levels, tables, &mut b), Ok(Outcome::Done));
    }
    assert_eq!(run.channels.map(|c| c.position), [10; 3]);
    for (job, c) in step(3) {
        refused(Refusal::Done, &mut run, &mut b, |run, b| call(run, job, c, levels, tables, b));
    }
}

#[test]
fn huge_data_weight_blows_in_step_1() {
    let text = whole().replacen(
        &tabs("s 0 0 0 w0 w0 w0 w0").replace('\n', ""),
        &tabs("s 1 0 0 w0 w0 w0 h7f000000").replace('\n', ""),
        1,
    );
    let sheet = sheet_of(&text);
    let (levels, tables) = (sheet.levels(), &sheet.tables);
    let (mut run, mut b) = started(&sheet);
    for (job, c) in step(1) {
        let due = if job == Job::Project { Outcome::Blown } else { Outcome::Done };
        assert_eq!(call(&mut run, job, c, levels, tables, &mut b), Ok(due));
    }
    assert!(run.channels[0].mark && b.plane.iter().chain(&b.saved[..64]).any(|x| !x.is_finite()));
    refused(Refusal::Blown, &mut run, &mut b, |run, b| push(run, 0, b));
    refused(Refusal::Blown, &mut run, &mut b, blend);
    assert_eq!(start(&mut run, levels, tables, &mut b), Ok(Outcome::Done));
    assert_eq!((run, b), started(&sheet));
}

#[test]
fn ordinary_numbers_never_blow() {
    let mut run = sheet_of(&whole()).joint_run();
    (run.n, run.smoothing, run.channels[0].weight) = (20, 1.0, 1.0);
    assert!(run.never_blows());
    let edits: [fn(&mut Run); 5] = [
        |r| r.n = 21,
        |r| r.smoothing = 1.5,
        |r| r.channels[0].weight = 1.0 + f32::EPSILON,
        |r| r.smoothing = f32::NAN,
        |r| r.count = 2,
    ];
    for edit in edits {
        let mut other = run;
        edit(&mut other);
        assert!(!other.never_blows());
    }
}

#[test]
fn calls_and_a_served_list_agree() {
    let sheet = sheet_of(&joint(7, "h3a83126f w0 w1"));
    let (levels, tables) = (sheet.levels(), &sheet.tables);
    // every step, with calls out of turn, of no channel and past the end among them
    let mut calls = step(3).repeat(7);
    for (at, job, c) in [(0, Job::Data, 0), (3, Job::Push, 9), (20, Job::Blend, 1), (41, Job::Project, 2)] {
        calls.insert(at, (job, c));
    }
    calls.extend(step(3));
    let (mut run, mut b) = started(&sheet);
    let one_by_one: Answers = calls.iter().map(|(job, c)| call(&mut run, *job, *c, levels, tables, &mut b)).collect();
    let mut served = sheet.joint_run();
    let mut buffers = served.buffers();
    assert_eq!(serve(&mut served, &calls, levels, tables, &mut buffers), Ok(one_by_one.clone()));
    assert_eq!((served, bits(&buffers)), (run, bits(&b)));
    assert_eq!(run.channels.map(|c| c.position), [35; 3]);
    assert_eq!(one_by_one.iter().filter(|answer| answer.is_ok()).count(), 7 * 13);
    let seen = |why: Refusal| one_by_one.contains(&Err(why.into()));
    assert!(seen(Refusal::Turn) && seen(Refusal::Channel) && seen(Refusal::Done));
    let (_, fresh) = started(&sheet);
    assert_ne!(bits(&b), bits(&fresh));
}

#[test]
fn a_list_refused() {
    let sheet = sheet_of(&joint(1, "w0 w0 w0"));
    let (levels, tables) = (sheet.levels(), &sheet.tables);
    let (mut run, mut b) = started(&sheet);
    let mut answers = [7; 2];
    for (jobs, channels, why) in
        [(&[0, 5][..], &[0, 0][..], Refusal::Turn), (&[0], &[0, 0], Refusal::Length), (&[0, 0], &[0], Refusal::Length)]
    {
        refused(why, &mut run, &mut b, |run, b| {
            serve_numbers(run, jobs, channels, &mut answers, levels, tables, b).map(|()| Outcome::Done)
        });
        assert_eq!(answers, [7; 2]);
    }
}

#[test]
fn separate_runs_of_a_sheet() {
    let sheet = sheet_of(&joint(2, "w3 w4 w5"));
    let run = sheet.separate_run(1);
    assert_eq!((run.count, run.n, run.smoothing, run.channels[0].weight), (1, 0, 1.0, 3.0));
    assert_eq!(sheet.joint_run().channels.map(|c| c.weight), [3.0, 4.0, 5.0]);
    // the starts of the channels alone are the parts of the joint start
    let (_, joint) = started(&sheet);
    for c in 0..3 {
        let mut run = sheet.separate_run(c);
        let mut b = run.buffers();
        assert_eq!(start(&mut run, sheet.levels_of(c), sheet.table_of(c), &mut b), Ok(Outcome::Done));
        assert_eq!(b.plane, joint.plane[c * 256..][..256]);
        assert_eq!(b.saved, joint.saved[c * 256..][..256]);
    }
}

#[test]
fn whole_example() {
    let sheet = sheet_of(&whole());
    let solved = sheet.solve().expect("legal").expect("planes");
    assert_eq!(solved.clipped, [0]);
    assert_eq!(sheet.finish(&solved.planes), Ok(vec![0x81; 6]));
}

#[test]
fn rounding() {
    // line F: planes of 0.5 are 128.5 with 128 added
    for (line, rounding, byte) in
        [("", Rounding::Truncate, 128), ("F\tt\n", Rounding::Truncate, 128), ("F\tn\n", Rounding::Nearest, 129)]
    {
        let sheet = sheet_of(&whole().replacen("\nC", &format!("\n{line}C"), 1));
        assert_eq!((sheet.rounding, sheet.numbers()[27]), (rounding, rounding as u32));
        assert_eq!(sheet.finish(&[0.5; 64]), Ok(vec![byte; 6]));
    }
    // document 02: "In the example of planes 0, 0, 100 green becomes 57"
    let planes = [[0.0; 64], [0.0; 64], [100.0; 64]].concat();
    for (rounding, due) in [(Rounding::Truncate, [255, 56, 128]), (Rounding::Nearest, [255, 57, 128])] {
        let mut rgb = [7; 3];
        assert_eq!(finish_into(rounding, [8, 8, 1, 1], 3, &planes, &mut rgb), Ok(()));
        assert_eq!(rgb, due);
    }
}

#[test]
fn solve_is_the_calls() {
    let sheet = sheet_of(&joint(3, "w1 w1 w1"));
    let (mut run, mut b) = started(&sheet);
    let mut totals = vec![];
    for _ in 0..run.n {
        for (job, c) in step(run.count) {
            match job {
                Job::Blend => totals.push(blend(&mut run, &mut b).expect("done")),
                _ => assert_eq!(call(&mut run, job, c, sheet.levels(), &sheet.tables, &mut b), Ok(Outcome::Done)),
            }
        }
    }
    let bits = |values: &[f32]| values.iter().map(|x| x.to_bits()).collect::<Vec<_>>();
    let solved = sheet.solve().expect("legal").expect("planes");
    assert_eq!(bits(&solved.planes), bits(&b.plane));
    assert_eq!(solved.totals, totals);
    assert_eq!((solved.totals.len(), sheet.blends()), (3, 3));
    assert!(solved.totals.iter().all(|both| both.tv > 0.0 && both.tgv > 0.0));
    assert_eq!(solved.clipped, run.channels.map(|c| c.clipped));
    assert!(solved.clipped.iter().any(|n| *n > 0));
}

#[test]
fn clipped_numbers() {
    let sheet = sheet_of(&joint(1, "w1 w1 w1"));
    let (levels, tables) = (sheet.levels(), &sheet.tables);
    let (mut run, mut b) = started(&sheet);
    for (job, c) in step(run.count) {
        if job == Job::Project {
            let said = project(&mut run, c, levels, tables, &mut b);
            let clipped = run.channels[c as usize].clipped;
            assert_eq!(said, Ok(Projected { outcome: Outcome::Done, clipped }));
        } else {
            assert_eq!(call(&mut run, job, c, levels, tables, &mut b), Ok(Outcome::Done));
        }
    }
    assert!(run.channels.iter().any(|c| c.clipped > 0));
    // at most w × h, and 0 before the first project has ended; a start clears them
    let most = run.channels[0].width * run.channels[0].height;
    for (position, clipped, due) in [(5, most, None), (5, most + 1, Some(())), (4, 1, Some(())), (4, 0, None)] {
        let mut damaged = run;
        (damaged.channels[0].position, damaged.channels[0].clipped) = (position, clipped);
        let due = due.map_or(Ok(Outcome::Done), |()| Err(Refusal::Record.into()));
        assert_eq!(start(&mut damaged, levels, tables, &mut b), due);
        if due.is_ok() {
            assert!(damaged.channels.iter().all(|c| c.clipped == 0));
        }
    }
}

/// Document 02, M-110: a partner gets the first level of a marked block and 63 zeros, whatever the others are; the staff gets all. 18 for both.
#[test]
fn marked_blocks() {
    let text = |levels: &str, lines: &str| {
        let block = format!("B 9 {levels}") + &" 0".repeat(61);
        whole().lines().map(|line| line.to_owned() + "\n").fold(String::new(), |text, line| match line.as_bytes()[0] {
            b'B' => text + &tabs(&block),
            b'E' => text + lines + &line,
            _ => text + &line,
        })
    };
    let mark = tabs("N 0 0 0");
    let read_by = |text: &str, reader| read_as(text.as_bytes(), Limits::default(), reader);
    let (one, other) = (text("3 -2047", &mark), text("0 5", &mark));
    let staff = read_by(&one, Reader::Staff).expect("legal");
    assert_eq!(staff.lows[..4], [9, 3, -2047, 0]);
    assert_eq!(Ok(staff), read_by(&text("3 -2047", ""), Reader::Partner));
    let partner = read_by(&one, Reader::Partner).expect("legal");
    assert_eq!((&partner.lows[..4], &partner.highs[..4]), ([9, 0, 0, 0].as_slice(), [9, 0, 0, 0].as_slice()));
    let alike = read_by(&other, Reader::Partner).expect("legal");
    assert_eq!((partner.solve(), partner), (alike.solve(), alike));
    for (text, error, line) in [
        (text("2048 0", &mark), Refusal::Level, 3),
        (text("0 0", &(mark.clone() + &mark)), Refusal::Mark, 5),
        (text("0 0", &tabs("N 1 0 0")), Refusal::Mark, 4),
    ] {
        let due = Some(Fault { error: error.into(), line });
        assert_eq!([Reader::Staff, Reader::Partner].map(|reader| read_by(&text, reader).err()), [due, due]);
    }
}

/// Document 02, M-107: faults of the left text, then of the right, then the seam, then the summed width, then the output's length.
#[test]
fn stitching() {
    let [left, right, both] = ["left", "right", "stitched"].map(|name| {
        std::fs::read_to_string(format!("{}/../../samples/{name}.tsv", env!("CARGO_MANIFEST_DIR"))).expect("the sample")
    });
    let bytes = |text: &str| text.as_bytes().to_vec();
    assert_eq!(stitch(left.as_bytes(), right.as_bytes()), Ok(bytes(&both)));
    let refused = |left: &str, right: &str| {
        let said = stitch(left.as_bytes(), right.as_bytes()).expect_err("refused");
        (said.refusal, said.at)
    };
    let cut = |text: &str| text[..text.len() - 2].to_owned();
    let lines = |text: &str| text.lines().count();
    assert_eq!(refused(&cut(&left), ""), (Refusal::Cut, Some((Side::Left, lines(&left)))));
    assert_eq!(refused(&left, ""), (Refusal::Cut, Some((Side::Right, 1))));
    assert_eq!(refused(&left, &cut(&right)), (Refusal::Cut, Some((Side::Right, lines(&right)))));
    assert_eq!(refused(&left, &whole()), (Refusal::Seam, None));
    let mut out = vec![7; both.len() - 1];
    let said = stitch_into(left.as_bytes(), right.as_bytes(), &mut out);
    assert_eq!(said.map_err(|said| (said.refusal, said.at)), Err((Refusal::Length, None)));
    assert!(out.iter().all(|x| *x == 7));
}

/// Document 02, M-108: a held channel stays as its last step left it, one that is held from the start as it began; 17 in a text, 13 in a record.
#[test]
fn held_channels() {
    let text = joint(3, "w1 w1 w1");
    let held = |counts: &str| text.replacen("\nC", &("\n".to_owned() + &tabs(&format!("H {counts}")) + "C"), 1);
    let plain = sheet_of(&text);
    assert_eq!(plain.held, [3; 3]);
    assert_eq!(plain.solve(), sheet_of(&held("3 3 3")).solve());

    let sheet = sheet_of(&held("3 0 1"));
    assert_eq!((sheet.held, &sheet.numbers()[29..]), ([3, 0, 1], [3, 0, 1].as_slice()));
    let part = |b: &Buffers, c: usize| bits(b).into_iter().map(|xs| xs[256 * c..][..256].to_vec()).collect::<Vec<_>>();
    let (mut run, mut b) = started(&sheet);
    let (mut after, mut clipped) = (vec![b.clone()], vec![]);
    for _ in 0..3 {
        for (job, c) in step(run.count) {
            assert_eq!(call(&mut run, job, c, sheet.levels(), &sheet.tables, &mut b), Ok(Outcome::Done));
        }
        after.push(b.clone());
        clipped.push(run.channels.map(|c| c.clipped));
    }
    assert_ne!(part(&after[3], 0), part(&after[2], 0));
    assert_eq!(part(&after[3], 1), part(&after[0], 1));
    assert_ne!(part(&after[1], 2), part(&after[0], 2));
    assert_eq!(part(&after[3], 2), part(&after[1], 2));
    assert_eq!(clipped.iter().map(|c| [c[1], c[2]]).collect::<Vec<_>>(), [[0, clipped[0][2]]; 3]);
    let solved = sheet.solve().expect("legal").expect("planes");
    assert_eq!((&solved.planes, solved.clipped), (&b.plane, clipped[2].to_vec()));

    let due = Err(Fault { error: Refusal::Hold.into(), line: 2 });
    assert_eq!(measure(held("3 4 1").as_bytes(), Limits::default()), due);
    let mut run = sheet.joint_run();
    run.channels[2].held = 4;
    assert_eq!(start(&mut run, sheet.levels(), &sheet.tables, &mut b), Err(Refusal::Record.into()));
    let (mut numbers, mut clipped, mut totals) = (sheet.numbers(), [7; 3], [0.0; 6]);
    numbers[31] = 4;
    let said = solve_into(&numbers, sheet.levels(), &sheet.tables, &mut b, &mut clipped, &mut totals);
    assert_eq!((said, clipped), (Err(Refusal::Record.into()), [7; 3]));
}

#[test]
fn solve_blows() {
    // document 01: "First data weight h7f000000, first iteration count 1: channel 0 blows in step 1."
    let sheet = sheet_of(&joint(1, "h7f000000 w1 w1"));
    let mut b = sheet.joint_run().buffers();
    let mut clipped = [7; 3];
    let said = solve_into(&sheet.numbers(), sheet.levels(), &sheet.tables, &mut b, &mut clipped, &mut [0.0; 2]);
    assert_eq!(said, Ok(Outcome::Blown));
    assert_eq!(clipped, [7; 3]);
    assert_eq!(sheet.solve(), Ok(None));
}

#[test]
fn solve_refuses() {
    let sheet = sheet_of(&joint(1, "w1 w1 w1"));
    let mut b = sheet.joint_run().buffers();
    let before = bits(&b);
    let mut numbers = sheet.numbers();
    numbers[6] = 1001;
    let mut no_letter = sheet.numbers();
    no_letter[28] = 2;
    for (numbers, levels, why) in [
        (&sheet.numbers()[1..], sheet.levels(), Refusal::Length),
        (&sheet.numbers(), Levels { lows: &sheet.lows[1..], ..sheet.levels() }, Refusal::Length),
        (&sheet.numbers(), Levels { highs: &sheet.highs[1..], ..sheet.levels() }, Refusal::Length),
        (&numbers, sheet.levels(), Refusal::Record),
        (&no_letter, sheet.levels(), Refusal::Record),
    ] {
        let (mut totals, mut clipped) = ([5.0; 2], [7; 3]);
        assert_eq!(solve_into(numbers, levels, &sheet.tables, &mut b, &mut clipped, &mut totals), Err(why.into()));
        assert_eq!((totals, clipped), ([5.0; 2], [7; 3]));
    }
    // one place for each channel, two for each blend; 13 comes first
    for (numbers, why) in [(&sheet.numbers(), Refusal::Length), (&numbers, Refusal::Record)] {
        for (blends, channels) in [(2, 2), (1, 3), (4, 3)] {
            let (mut totals, mut clipped) = (vec![5.0; blends], vec![7; channels]);
            let said = solve_into(numbers, sheet.levels(), &sheet.tables, &mut b, &mut clipped, &mut totals);
            assert_eq!(said, Err(why.into()));
            assert_eq!((totals, clipped), (vec![5.0; blends], vec![7; channels]));
        }
    }
    assert_eq!(bits(&b), before);
    assert_eq!(
        finish_into(Rounding::Truncate, [16, 16, 17, 9], 3, &b.plane, &mut [0; 459]),
        Err(Refusal::Record.into())
    );
    assert_eq!(
        finish_into(Rounding::Nearest, [16, 16, 13, 9], 3, &b.plane, &mut [0; 352]),
        Err(Refusal::Length.into())
    );
}
