//! The row calls against the formulas, number by number, and their refusals at every edge.
use terrain_tests::areas::Guarded;
use terrain_tests::test_exports::{predict_row, unpredict_row, unupdate_row, update_row, Rows};
use terrain_tests::random::Random;

type Call = fn(&mut [i32], Rows) -> u32;

/// A number changed by its two neighbours, taken whole.
type Formula = fn(i128, i128, i128) -> i128;

const CALLS: [(Call, Formula); 4] = [
    (predict_row, |x, a, b| x - (a + b).div_euclid(2)),
    (update_row, |x, a, b| x + (a + b + 2).div_euclid(4)),
    (unupdate_row, |x, a, b| x - (a + b + 2).div_euclid(4)),
    (unpredict_row, |x, a, b| x + (a + b).div_euclid(2)),
];

/// No row is wider than the stride, and each ends within the area.
fn fit(len: usize, r: Rows) -> bool {
    let ends = |row: usize| row as u128 * r.stride as u128 + r.width as u128 <= len as u128;
    r.width <= r.stride && ends(r.target) && ends(r.left) && ends(r.right)
}

/// The area afterwards, each number of the target row by what stood in its column before.
fn changed(area: &[i32], r: Rows, formula: Formula) -> Vec<i32> {
    let mut after = area.to_vec();
    for i in 0..r.width {
        let old = |row: usize| area[row * r.stride + i] as i128;
        let sum = formula(old(r.target), old(r.left), old(r.right));
        after[r.target * r.stride + i] = sum.rem_euclid(1 << 32) as u32 as i32;
    }
    after
}

/// Answer and area are what the formulas say, for each of the four calls.
fn check(area: &[i32], r: Rows) {
    for (call, formula) in CALLS {
        let mut lent = Guarded::new(area);
        let answer = call(lent.lent(), r);
        if fit(area.len(), r) {
            assert_eq!(answer, 0, "{r:?} in {} numbers", area.len());
            assert_eq!(lent.content(), changed(area, r, formula), "{r:?} in {} numbers", area.len());
        } else {
            assert_eq!(answer, 5, "{r:?} in {} numbers", area.len());
            assert_eq!(lent.content(), area, "{r:?} in {} numbers", area.len());
        }
    }
}

fn words(random: &mut Random, n: usize) -> Vec<i32> {
    (0..n).map(|_| random.word()).collect()
}

#[test]
fn every_small_shape() {
    let mut random = Random::new(1);
    for len in 0..=9 {
        let area = words(&mut random, len);
        for stride in 0..=4 {
            for width in 0..=5 {
                for rows in 0..4_usize.pow(3) {
                    check(&area, Rows { stride, width, target: rows % 4, left: rows / 4 % 4, right: rows / 16 });
                }
            }
        }
    }
}

#[test]
fn wide_rows_in_any_order_also_the_same_row_twice() {
    let mut random = Random::new(2);
    for width in [1, 3, 4, 15, 16, 17, 31, 64, 65, 1_000, 2_049] {
        for more in [0, 1, 5] {
            let stride = width + more;
            let area = words(&mut random, 3 * stride + width);
            for rows in 0..4_usize.pow(3) {
                check(&area, Rows { stride, width, target: rows % 4, left: rows / 4 % 4, right: rows / 16 });
            }
        }
    }
}

#[test]
fn extreme_numbers() {
    let extremes = [i32::MIN, i32::MIN + 1, -1, 0, 1, 65_535, i32::MAX - 1, i32::MAX];
    let n = extremes.len();
    let column = |i: usize| [extremes[i % n], extremes[i / n % n], extremes[i / n / n]];
    let width = n * n * n;
    let area: Vec<i32> = (0..3).flat_map(|row| (0..width).map(move |i| column(i)[row])).collect();
    check(&area, Rows { stride: width, width, target: 1, left: 0, right: 2 });
    check(&area, Rows { stride: width, width, target: 0, left: 2, right: 2 });
}

#[test]
fn numbers_whose_products_overflow_are_turned_away() {
    let area = [7; 40];
    let huge = [usize::MAX, usize::MAX - 1, usize::MAX / 2, usize::MAX / 2 + 1, 1 << 32, 1 << 63, 40, 41];
    for a in huge {
        for b in huge {
            for width in [0, 1, 4, a, b] {
                check(&area, Rows { stride: a, width, target: b, left: 0, right: 0 });
                check(&area, Rows { stride: a, width, target: 0, left: b, right: 0 });
                check(&area, Rows { stride: a, width, target: 0, left: 0, right: b });
                check(&area, Rows { stride: 4, width, target: a, left: b, right: 1 });
            }
        }
    }
}

#[test]
fn what_a_row_call_did_its_inverse_takes_back() {
    let mut random = Random::new(3);
    for (call, inverse) in [(predict_row as Call, unpredict_row as Call), (update_row, unupdate_row), (unpredict_row, predict_row), (unupdate_row, update_row)] {
        for width in [1, 7, 16, 33, 2_049] {
            let area = words(&mut random, 3 * width);
            let rows = Rows { stride: width, width, target: 1, left: 0, right: 2 };
            let mut lent = Guarded::new(&area);
            assert_eq!(call(lent.lent(), rows), 0);
            assert_eq!(inverse(lent.lent(), rows), 0);
            assert_eq!(lent.content(), area);
        }
    }
}
