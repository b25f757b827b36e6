//! The calls for DQT segments. Expected values are T.81's Tables K.1 and K.2, which libjpeg writes at quality 50, and document 02's.
use smoother::*;

const QUALITY_50: &[u8] = include_bytes!("../../../oracle/jpeg/quality50.jpg");
const QUALITY_1: &[u8] = include_bytes!("../../../oracle/jpeg/quality1.jpg");

/// The DQT segments of a JPEG file, each from its marker to its stated length.
fn segments(file: &[u8]) -> Vec<&[u8]> {
    let (mut found, mut at) = (vec![], 2);
    while file[at + 1] != 0xDA {
        let end = at + 2 + usize::from(u16::from_be_bytes([file[at + 2], file[at + 3]]));
        if file[at + 1] == 0xDB {
            found.push(&file[at..end]);
        }
        at = end;
    }
    found
}

#[test]
fn tables_of_a_jpeg_file() {
    let mut tables = [7; QUANTISERS];
    for segment in segments(QUALITY_50) {
        dqt_import(segment, &mut tables).expect("8 bits");
    }
    assert_eq!(tables[..16], [16, 11, 10, 16, 24, 40, 51, 61, 12, 12, 14, 19, 26, 58, 60, 55]);
    assert_eq!(tables[64..72], [17, 18, 24, 47, 99, 99, 99, 99]);
    assert_eq!(tables[128..], [7; 128]);
    let before = tables;
    for segment in segments(QUALITY_1) {
        assert_eq!(dqt_import(segment, &mut tables), Err(Refusal::Precision));
    }
    assert_eq!(tables, before);
}

#[test]
fn export_and_back() {
    let tables: Vec<u16> = (0..256).map(|k| k * 37 % 255 + 1).collect();
    let segment = dqt_export(&tables).expect("1 to 255");
    assert_eq!((segment[..5].to_vec(), segment[69]), (vec![0xFF, 0xDB, 1, 6, 0], 1));
    let mut back = [0; QUANTISERS];
    assert_eq!(dqt_import(&segment, &mut back), Ok(()));
    assert_eq!(back.to_vec(), tables);
}

#[test]
fn refusals_leave_what_is_lent() {
    let mut tables = [7; QUANTISERS];
    let whole = dqt_export(&tables).expect("legal");
    let mut refused = |change: &dyn Fn(&mut Vec<u8>), why: Refusal| {
        let mut segment = whole.to_vec();
        change(&mut segment);
        assert_eq!(dqt_import(&segment, &mut tables), Err(why));
        assert_eq!(tables, [7; QUANTISERS]);
    };
    refused(&|s| s[1] = 0xC4, Refusal::Segment);
    refused(&|s| s[3] = 8, Refusal::Segment);
    refused(&|s| s.truncate(263), Refusal::Segment);
    refused(&|s| s[4] = 4, Refusal::Precision);
    refused(&|s| s[199] = 0x10, Refusal::Precision);
    refused(&|s| s[263] = 0, Refusal::Table);
    refused(&|s| s.clear(), Refusal::Segment);
    assert_eq!(dqt_import(&whole, &mut tables[..255]), Err(Refusal::Length));
    tables[255] = 256;
    let mut out = [9; SEGMENT];
    assert_eq!(dqt_export_into(&tables, &mut out), Err(Refusal::Table));
    assert_eq!(dqt_export_into(&tables, &mut out[..263]), Err(Refusal::Length));
    assert_eq!(out, [9; SEGMENT]);
}
