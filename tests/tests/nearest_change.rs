//! The nearest change of a cell against every height and every new height in the order of document 02, over a second lifting (`reference`); and
//! the calls that are turned away, which leave `change` as it was.
use terrain::{nearest_change, raw, Call, Change, MAX_HEIGHT, MAX_WIDTH};
use terrain_tests::random::Random;
use terrain_tests::{reference, refusal};

struct Map {
    width: usize,
    height: usize,
    heights: Vec<u16>,
}

impl Map {
    /// Cell (r, c) of the level-1 LL: low value r of every column, and low value c of these.
    fn cell(&self, r: usize, c: usize) -> i32 {
        let column = |j| (0..self.height).map(|i| i32::from(self.heights[i * self.width + j])).collect::<Vec<_>>();
        let lows: Vec<i32> = (0..self.width).map(|j| reference::forward(&column(j))[2 * r]).collect();
        reference::forward(&lows)[2 * c]
    }

    fn cells(&self) -> impl Iterator<Item = (usize, usize)> {
        let columns = self.width.div_ceil(2);
        (0..self.height.div_ceil(2)).flat_map(move |r| (0..columns).map(move |c| (r, c)))
    }

    /// The first change that alters the cell: by difference, raises before cuts, rows, columns.
    fn first(&mut self, r: usize, c: usize) -> Change {
        let before = self.cell(r, c);
        for difference in 1..=65_535 {
            for sign in [1, -1] {
                for at in 0..self.heights.len() {
                    let old = self.heights[at];
                    let Ok(new) = u16::try_from(i32::from(old) + sign * difference) else { continue };
                    self.heights[at] = new;
                    let after = self.cell(r, c);
                    self.heights[at] = old;
                    if after != before {
                        return Change { row: at / self.width, column: at % self.width, height: new };
                    }
                }
            }
        }
        unreachable!("a difference of 4 is enough");
    }

    /// Every cell against the first change, and how often each difference came.
    fn compare(&mut self, seen: &mut [usize; 5]) {
        let cells: Vec<_> = self.cells().collect();
        for (r, c) in cells {
            let lent = self.heights.clone();
            let change = nearest_change(&lent, self.width, self.height, r, c).expect("a cell of LL");
            assert_eq!(lent, self.heights, "the heights are changed");
            assert_eq!(change, self.first(r, c), "{} x {} {:?}, cell ({r}, {c})", self.width, self.height, self.heights);
            let old = self.heights[change.row * self.width + change.column];
            seen[usize::from(old.abs_diff(change.height))] += 1;
        }
    }
}

/// Every map of that size with heights from this set.
fn every_map(width: usize, height: usize, set: &[u16], seen: &mut [usize; 5]) {
    let n = width * height;
    for number in 0..set.len().pow(n as u32) {
        let heights = (0..n).map(|k| set[number / set.len().pow(k as u32) % set.len()]).collect();
        Map { width, height, heights }.compare(seen);
    }
}

/// Every map up to 4 x 4 of two heights, small ones and extreme ones; of few heights, every map of more of them.
#[test]
fn all_small_maps() {
    let mut seen = [0; 5];
    for (width, height) in (1..=4).flat_map(|w| (1..=4).map(move |h| (w, h))) {
        let sets: &[&[u16]] = match width * height {
            1..=4 => &[&[0, 1, 2, 3, 5], &[65_535, 65_534, 65_533, 0], &[0, 4, 65_531, 65_535]],
            5..=6 => &[&[0, 1, 2], &[65_535, 65_534, 0], &[0, 4, 65_535]],
            _ => &[&[0, 1], &[65_535, 65_534], &[0, 65_535]],
        };
        sets.iter().for_each(|set| every_map(width, height, set, &mut seen));
    }
    assert!(seen[1..].iter().all(|&n| n > 0), "each difference from 1 to 4 comes: {seen:?}");
}

#[test]
fn random_maps() {
    let mut random = Random::new(12);
    let mut seen = [0; 5];
    for turn in 0..400 {
        let (width, height) = (1 + random.below(11), 1 + random.below(11));
        let near = |n: usize| if turn % 3 == 0 { n % 5 } else { 65_535 - n % 5 };
        let heights = (0..width * height).map(|_| random.below(65_536)).map(|n| (if turn % 3 < 2 { near(n) } else { n }) as u16).collect();
        Map { width, height, heights }.compare(&mut seen);
    }
    assert!(seen[1] > 0 && seen[2] > 0, "{seen:?}");
}

/// Flat ground at the largest height, where a raise is none: the cell's own height cut by 4 at the corner of 2 x 2, document 02's 4.
#[test]
fn four_is_attained() {
    let flat = |n| Map { width: n, height: n, heights: vec![65_535; n * n] };
    assert_eq!(flat(2).first(0, 0), Change { row: 0, column: 0, height: 65_531 });
    assert_eq!(nearest_change(&flat(2).heights, 2, 2, 0, 0), Ok(Change { row: 0, column: 0, height: 65_531 }));
}

/// The largest width, and a map far down: the last cell's own change is found where the heights begin late.
#[test]
fn the_widest_map() {
    let (width, height) = (MAX_WIDTH, 5);
    let mut random = Random::new(3);
    let heights: Vec<u16> = (0..width * height).map(|_| random.below(65_536) as u16).collect();
    for column in [0usize, 1, 511, 1_023, 1_024] {
        // the cell reads nothing outside nine columns of its own, so the part of the map around it has the same change
        let from = (2 * column).saturating_sub(4);
        let to = (2 * column + 5).min(width);
        let part = |i: usize| heights[i * width + from..i * width + to].to_vec();
        let mut near = Map { width: to - from, height, heights: (0..height).flat_map(part).collect() };
        for row in 0..3 {
            let first = near.first(row, column - from / 2);
            assert_eq!(nearest_change(&heights, width, height, row, column), Ok(Change { column: first.column + from, ..first }), "column {column}");
        }
    }
}

#[test]
fn refused_calls_leave_the_change() {
    let heights = [9; 12];
    let asked = |width, height, row, column, len: usize| {
        let mut change = [1, 2, 3];
        let answer = raw::nearest_change(&heights[..len], width, height, row, column, &mut change);
        assert_eq!(change == [1, 2, 3], answer != 0, "{width} x {height}, ({row}, {column})");
        answer
    };
    let most = usize::MAX;
    assert_eq!([asked(0, 0, 9, 9, 0), asked(MAX_WIDTH + 1, 0, 0, 0, 12), asked(most, most, most, most, 0)], [2; 3]);
    assert_eq!([asked(3, 0, 9, 9, 0), asked(3, MAX_HEIGHT + 1, 0, 0, 12), asked(1, most, 0, 0, 12)], [3; 3]);
    assert_eq!([asked(3, 4, 9, 9, 11), asked(1, 1, 0, 0, 0), asked(MAX_WIDTH, MAX_HEIGHT, 0, 0, 12)], [5; 3]);
    assert_eq!([asked(3, 4, 2, 0, 12), asked(3, 4, 0, 2, 12), asked(3, 4, most, 0, 12), asked(3, 4, 0, most, 12)], [6; 4]);
    assert_eq!([asked(4, 3, 2, 0, 12), asked(4, 3, 1, 2, 12)], [6; 2]);
    assert_eq!([asked(3, 4, 1, 1, 12), asked(4, 3, 1, 1, 12), asked(1, 1, 0, 0, 12)], [0; 3]);
    assert_eq!(nearest_change(&heights, 3, 4, 2, 0), refusal(Call::NearestChange, 6));
}
