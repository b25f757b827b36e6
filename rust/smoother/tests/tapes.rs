//! The calls for the archive tapes. Expected values are document 02's, or T.81's zigzag written out.
use smoother::*;

/// Two blocks of levels 0 to 127.
fn counted() -> Vec<i16> {
    (0..128).collect()
}

#[test]
fn zigzag_order_and_differences() {
    let stored = rearrange(&counted()).expect("legal");
    assert_eq!(stored[..10], [0, 1, 8, 16, 9, 2, 3, 10, 17, 24]);
    assert_eq!(stored[64..70], [64, 65, 72, 80, 73, 66]);
    assert_eq!(restore(&stored), Ok(counted()));
}

#[test]
fn ends_of_the_range() {
    let mut levels = vec![0; 192];
    for (block, first) in [2047, -2047, 2047].into_iter().enumerate() {
        levels[block * 64] = first;
    }
    let stored = rearrange(&levels).expect("legal");
    assert_eq!((stored[0], stored[64], stored[128]), (2047, -4094, 4094));
    assert_eq!(restore(&stored), Ok(levels));
}

#[test]
fn refusals_leave_the_slice() {
    let mut out = vec![7; 128];
    let mut levels = counted();
    levels[127] = 2048;
    assert_eq!(rearrange_into(&levels, &mut out), Err(Refusal::Level));
    assert_eq!(rearrange_into(&levels[..64], &mut out), Err(Refusal::Length));
    assert_eq!(rearrange_into(&levels[..127], &mut out[..127]), Err(Refusal::Length));
    let mut stored = vec![0; 128];
    stored[0] = -2047;
    for difference in [-1, i16::MIN, 4095] {
        stored[64] = difference;
        assert_eq!(restore_into(&stored, &mut out), Err(Refusal::Level));
    }
    assert_eq!(restore_into(&stored, &mut out[..64]), Err(Refusal::Length));
    assert_eq!(out, [7; 128]);
    assert_eq!((rearrange(&[]), restore(&[])), (Ok(vec![]), Ok(vec![])));
}
