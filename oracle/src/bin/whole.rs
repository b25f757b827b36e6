//! What becomes of a sheet with sides up to 512, by the published Rust.
//!
//!     whole FILE.tsv
//!
//! Lines `T` and `K` as `smooth` prints them; `P`, channel, and the bits of its plane's values; then `I` and `R` as `smooth` prints them. A refusal is one line `X`.
//! `tools/tests` holds the tools' planes against these lines.
use oracle::{
    floats::{bits, bits64},
    picture::{Ended, drawn, ended},
    sheet::{MOST, Sheet, joined, read},
};
use std::fs;

fn lines(sheet: &Sheet, ended: Ended) -> String {
    let mut text = String::new();
    for t in &ended.totals {
        let [first, second] = t.totals.map(bits64);
        text += &format!("T\t{}\t{}\t{first:016x}\t{second:016x}\n", t.channel, t.step);
    }
    for (c, number) in ended.clipped.iter().enumerate() {
        text += &format!("K\t{c}\t{number}\n");
    }
    for (c, plane) in ended.planes.iter().enumerate() {
        text += &format!("P\t{c}\t{}\n", joined(plane.iter().map(|x| format!("{:08x}", bits(*x))), "\t"));
    }
    let image = drawn(sheet, ended.planes);
    text += &format!("I\t{}\t{}\n", image.width, image.height);
    for row in image.bytes.chunks(3 * image.width as usize) {
        let pixels = row.chunks(3).map(|p| format!("{:02x}{:02x}{:02x}", p[0], p[1], p[2]));
        text += &format!("R\t{}\n", joined(pixels, "\t"));
    }
    text
}

fn main() {
    let file = std::env::args().nth(1).expect("a file");
    let text = fs::read(&file).unwrap_or_else(|e| panic!("{file}: {e}"));
    match read(&text, MOST).and_then(|sheet| Ok(lines(&sheet, ended(&sheet).ok_or((10, 0))?))) {
        Ok(lines) => print!("{lines}"),
        Err((number, line)) => println!("X\t{number}\t{line}"),
    }
}
