//! A processor that rounds otherwise, or drops subnormals: every call that computes is refused, nothing changes, and all is as before when it is set back.
use smoother::*;
use std::arch::asm;

/// What MXCSR may have set that changes results.
const MODES: [u32; 6] = [0x2000, 0x4000, 0x6000, 0x8000, 0x0040, 0xE040]; // down, up, to zero; flush to zero; denormals are zero; all

fn mxcsr() -> u32 {
    let mut value = 0_u32;
    unsafe { asm!("stmxcsr [{}]", in(reg) &raw mut value, options(nostack)) };
    value
}

fn set(value: u32) {
    unsafe { asm!("ldmxcsr [{}]", in(reg) &raw const value, options(nostack)) };
}

struct Back(u32);

impl Drop for Back {
    fn drop(&mut self) {
        set(self.0);
    }
}

/// What `f` gives while these bits are set. It computes no float itself.
fn under<T>(bits: u32, f: impl FnOnce() -> T) -> T {
    let back = Back(mxcsr());
    set(back.0 | bits);
    f()
}

fn colours() -> Sheet {
    let text = std::fs::read("../../samples/colour.tsv").expect("the sample");
    read(&text, Limits::default()).expect("legal")
}

fn bits(b: &Buffers) -> Vec<Vec<u32>> {
    let all = [&b.plane, &b.prior, &b.gradient, &b.across, &b.down, &b.saved];
    all.map(|values| values.iter().map(|x| x.to_bits()).collect()).into()
}

#[test]
fn three_settings_matter_and_no_other() {
    for bit in 0..16 {
        let matters = 0xE040 >> bit & 1 == 1; // else a flag of what happened, or a mask, which is set anyway
        assert_eq!(under(1 << bit, rounds_to_nearest), !matters, "bit {bit}");
    }
    assert!(rounds_to_nearest());
}

#[test]
fn every_call_that_computes_is_refused() {
    let sheet = colours();
    let (levels, tables, numbers) = (sheet.levels(), &sheet.tables[..], sheet.numbers());
    let mut run = sheet.joint_run();
    let mut b = run.buffers();
    start(&mut run, levels, tables, &mut b).expect("legal");
    let before = (run, bits(&b));
    let sides = [sheet.width, sheet.height, sheet.picture_width, sheet.picture_height];
    let (mut clipped, mut totals, mut answers) = ([7; 3], vec![7.0; 2 * sheet.blends()], [7]);
    let mut rgb = vec![7; (3 * sides[2] * sides[3]) as usize];
    let planes = b.plane.clone();
    for mode in MODES {
        let said = under(mode, || {
            let mut said = vec![
                start(&mut run, levels, tables, &mut b).err(),
                push(&mut run, 0, &mut b).err(),
                data(&mut run, 0, levels, tables, &mut b).err(),
                blend(&mut run, &mut b).err(),
                move_plane(&mut run, 0, &mut b).err(),
                project(&mut run, 0, levels, tables, &mut b).err(),
                serve(&mut run, &[(Job::Push, 0)], levels, tables, &mut b).err(),
                serve_numbers(&mut run, &[0], &[0], &mut answers, levels, tables, &mut b).err(),
                sheet.solve().err(),
                solve_into(&numbers, levels, tables, &mut b, &mut clipped, &mut totals).err(),
                sheet.finish(&planes).err(),
                finish_into(sheet.rounding, sides, sheet.count, &planes, &mut rgb).err(),
            ];
            for job in [Job::Push, Job::Data, Job::Blend, Job::Move, Job::Project] {
                said.push(call(&mut run, job, 0, levels, tables, &mut b).err());
            }
            said
        });
        assert_eq!(said, vec![Some(Error::Mode); said.len()], "{mode:#x}");
        assert_eq!((run, bits(&b)), before);
        assert_eq!((clipped, answers), ([7; 3], [7]));
        assert!(totals.iter().all(|x| *x == 7.0) && rgb.iter().all(|x| *x == 7));
    }
    assert!(Error::Mode.to_string().contains("nothing is computed"));
}

#[test]
fn answers_are_right_again() {
    let sheet = colours();
    let picture = |sheet: &Sheet| {
        let solved = sheet.solve().expect("legal").expect("mild");
        let rgb = sheet.finish(&solved.planes).expect("legal");
        (solved, rgb)
    };
    let due = picture(&sheet);
    for mode in MODES {
        assert_eq!(under(mode, || sheet.solve().err()), Some(Error::Mode));
        assert_eq!(picture(&sheet), due);
    }
}

#[test]
fn calls_without_floats_do_not_depend_on_it() {
    let sheet = colours();
    for mode in MODES {
        let (again, tape) = under(mode, || (colours(), rearrange(sheet.levels_of(0).lows)));
        assert_eq!(again, sheet);
        assert_eq!(restore(&tape.expect("legal")), Ok(sheet.levels_of(0).lows.to_vec()));
    }
}
