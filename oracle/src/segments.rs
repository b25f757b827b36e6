//! DQT segments, written from document 02 (M-113) and T.81 B.2.4.1. Tables are found in a copy, which is taken over where nothing is refused.
use crate::tapes::walk;

/// The import call: its answer, and `tables` unless it is refused.
pub fn import(segment: &[u8], tables: &mut [u16]) -> u32 {
    if tables.len() != 256 {
        return 8;
    }
    let [0xff, 0xdb, high, low, body @ ..] = segment else { return 19 };
    let stated = usize::from(u16::from_be_bytes([*high, *low]));
    if stated != segment.len() - 2 || stated < 67 {
        return 19;
    }
    let (walk, mut new, mut left) = (walk(), tables.to_vec(), body);
    while let [head, after @ ..] = left {
        if head >> 4 != 0 || head & 15 > 3 {
            return 20;
        }
        let Some((bytes, more)) = after.split_at_checked(64) else { return 19 };
        if bytes.contains(&0) {
            return 4;
        }
        for (place, byte) in walk.iter().zip(bytes) {
            new[usize::from(*head) * 64 + place] = u16::from(*byte);
        }
        left = more;
    }
    tables.copy_from_slice(&new);
    0
}

/// The export call: its answer, and `out` unless it is refused.
pub fn export(tables: &[u16], out: &mut [u8]) -> u32 {
    if tables.len() != 256 || out.len() != 264 {
        return 8;
    }
    if !tables.iter().all(|q| (1..=255).contains(q)) {
        return 4;
    }
    let (walk, mut bytes) = (walk(), vec![0xff, 0xdb, 0x01, 0x06]);
    for (destination, table) in tables.chunks(64).enumerate() {
        bytes.push(destination as u8);
        bytes.extend(walk.iter().map(|place| table[*place] as u8));
    }
    out.copy_from_slice(&bytes);
    0
}

/// The DQT segments of a JPEG file, each from its marker to its stated length: the segments before the first scan, one after the other.
pub fn of_file(file: &[u8]) -> Vec<&[u8]> {
    let mut found = vec![];
    let mut left = file.strip_prefix(&[0xff, 0xd8]).expect("a JPEG file");
    while let [0xff, marker, high, low, ..] = left
        && *marker != 0xda
    {
        let (segment, more) = left.split_at(2 + usize::from(u16::from_be_bytes([*high, *low])));
        if *marker == 0xdb {
            found.push(segment);
        }
        left = more;
    }
    found
}

/// The files of oracle/jpeg, by name. How they were made is in make.sh there.
pub const FILES: [(&str, &[u8]); 13] = [
    ("quality1", include_bytes!("../jpeg/quality1.jpg")),
    ("quality10", include_bytes!("../jpeg/quality10.jpg")),
    ("quality25", include_bytes!("../jpeg/quality25.jpg")),
    ("quality50", include_bytes!("../jpeg/quality50.jpg")),
    ("quality75", include_bytes!("../jpeg/quality75.jpg")),
    ("quality95", include_bytes!("../jpeg/quality95.jpg")),
    ("quality100", include_bytes!("../jpeg/quality100.jpg")),
    ("baseline1", include_bytes!("../jpeg/baseline1.jpg")),
    ("baseline10", include_bytes!("../jpeg/baseline10.jpg")),
    ("grey50", include_bytes!("../jpeg/grey50.jpg")),
    ("progressive75", include_bytes!("../jpeg/progressive75.jpg")),
    ("channels", include_bytes!("../jpeg/channels.jpg")),
    ("slots", include_bytes!("../jpeg/slots.jpg")),
];

#[cfg(test)]
mod tests {
    use super::*;

    fn file(name: &str) -> &'static [u8] {
        FILES.iter().find(|file| file.0 == name).expect("a file").1
    }

    #[test]
    fn tables_of_a_file() {
        // T.81 Tables K.1 and K.2, which quality 50 is
        let mut tables = vec![7; 256];
        for segment in of_file(file("quality50")) {
            assert_eq!(import(segment, &mut tables), 0);
        }
        assert_eq!(tables[..16], [16, 11, 10, 16, 24, 40, 51, 61, 12, 12, 14, 19, 26, 58, 60, 55]);
        assert_eq!(tables[64..72], [17, 18, 24, 47, 99, 99, 99, 99]);
        assert!(tables[128..].iter().all(|q| *q == 7));
        // the tables that the encoder was handed, row by row, for three destinations
        let mut tables = vec![7; 256];
        for segment in of_file(file("slots")) {
            assert_eq!(import(segment, &mut tables), 0);
        }
        assert!(tables[..192].iter().copied().eq(1..=192));
        // 16 bits
        assert!(of_file(file("quality1")).iter().all(|segment| import(segment, &mut tables) == 20));
    }

    #[test]
    fn order_of_refusals() {
        let table = |head: u8| [vec![head], vec![9; 64]].concat();
        let segment = |body: &[u8]| {
            let stated = (body.len() + 2) as u16;
            [&[0xff, 0xdb][..], &stated.to_be_bytes(), body].concat()
        };
        let mut tables = vec![7; 256];
        let mut answer = |segment: &[u8]| import(segment, &mut tables);
        assert_eq!(answer(&segment(&[table(0), vec![0x10]].concat())), 20);
        assert_eq!(answer(&segment(&[table(0), vec![0x00]].concat())), 19);
        assert_eq!(answer(&segment(&[vec![0; 65], table(4)].concat())), 4);
        assert_eq!(answer(&segment(&[vec![0x10], vec![0; 64]].concat())), 20);
        assert_eq!(answer(&[&[0xff][..], &segment(&table(0))].concat()), 19);
        assert_eq!(answer(&[]), 19);
        assert_eq!(import(&[], &mut [0; 255]), 8);
        assert_eq!(tables, [7; 256]);
    }
}
