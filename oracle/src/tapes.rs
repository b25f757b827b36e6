//! The archive tapes' order of levels, written from document 02 (M-109): zigzag by walking over the block, sums in 64 bits.

/// The row by row place of each place of T.81's zigzag sequence: from the top left to the right, then along the diagonals, up and down in turn.
pub fn walk() -> [usize; 64] {
    let (mut row, mut column, mut up) = (0_i32, 0_i32, true);
    std::array::from_fn(|_| {
        let here = (row * 8 + column) as usize;
        let (next_row, next_column) = if up { (row - 1, column + 1) } else { (row + 1, column - 1) };
        if (0..8).contains(&next_row) && (0..8).contains(&next_column) {
            (row, column) = (next_row, next_column);
        } else {
            // past an edge: along the right or lower edge if the walk has come to it, else along the other
            match (up, column == 7, row == 7) {
                (true, false, _) | (false, _, true) => column += 1,
                _ => row += 1,
            }
            up = !up;
        }
        here
    })
}

fn legal(level: i64) -> bool {
    level.abs() <= 2047
}

/// "both slices have the same length, a multiple of 64".
fn fit(a: usize, b: usize) -> bool {
    a == b && a.is_multiple_of(64)
}

/// The rearranging call: its answer, and `out` unless it is refused.
pub fn rearrange(levels: &[i16], out: &mut [i16]) -> u32 {
    if !fit(levels.len(), out.len()) {
        return 8;
    }
    if !levels.iter().all(|x| legal(i64::from(*x))) {
        return 5;
    }
    let (walk, mut last) = (walk(), 0);
    for (block, stored) in levels.chunks(64).zip(out.chunks_mut(64)) {
        for (place, value) in walk.iter().zip(&mut *stored) {
            *value = block[*place];
        }
        stored[0] = block[0] - last;
        last = block[0];
    }
    0
}

/// The inverse: all levels are found first, then looked at, then written.
pub fn restore(stored: &[i16], out: &mut [i16]) -> u32 {
    if !fit(stored.len(), out.len()) {
        return 8;
    }
    let walk = walk();
    let mut levels = vec![0_i64; stored.len()];
    let mut chain = 0;
    for (block, level) in stored.chunks(64).zip(levels.chunks_mut(64)) {
        for (place, value) in walk.iter().zip(block) {
            level[*place] = i64::from(*value);
        }
        chain += i64::from(block[0]);
        level[0] = chain;
    }
    if !levels.iter().all(|x| legal(*x)) {
        return 5;
    }
    for (to, level) in out.iter_mut().zip(levels) {
        *to = level as i16;
    }
    0
}

#[cfg(test)]
mod tests {
    use super::*;

    #[test]
    fn the_walk_begins_and_ends_as_t81_has_it() {
        let walk = walk();
        assert_eq!(walk[..10], [0, 1, 8, 16, 9, 2, 3, 10, 17, 24]);
        assert_eq!(walk[28..36], [7, 14, 21, 28, 35, 42, 49, 56]);
        assert_eq!(walk[60..], [47, 55, 62, 63]);
        let mut places = walk.to_vec();
        places.sort_unstable();
        assert!(places.into_iter().eq(0..64));
    }

    #[test]
    fn differences_run_over_blocks() {
        let levels: Vec<i16> = (0..192).map(|k| if k % 64 == 0 { [-2047, 2047, 2046][k / 64] } else { 0 }).collect();
        let mut stored = vec![0; 192];
        assert_eq!(rearrange(&levels, &mut stored), 0);
        assert_eq!((stored[0], stored[64], stored[128]), (-2047, 4094, -1));
        let mut back = vec![0; 192];
        assert_eq!((restore(&stored, &mut back), &back), (0, &levels));
        stored[64] = i16::MIN;
        assert_eq!((restore(&stored, &mut back), &back), (5, &levels));
        assert_eq!(restore(&stored[..191], &mut back[..191]), 8);
    }
}
