//! The pair calls against the row calls one after the other, and their refusals.
use terrain_tests::areas::Guarded;
use terrain_tests::test_exports::{lift_and_copy, lift_pair, predict_row, update_row, Pair, Rows};
use terrain_tests::random::Random;

/// The four rows lie within the area, none is wider than the stride, and the two that are changed are two.
fn fit(len: usize, p: Pair) -> bool {
    let ends = |row: usize| row as u128 * p.stride as u128 + p.width as u128 <= len as u128;
    p.width <= p.stride && p.low != p.high && [p.high, p.low, p.right, p.before].into_iter().all(ends)
}

/// The high row predicted, the low row updated, and, where asked, the high row copied over the one before.
fn lifted(area: &[i32], p: Pair, copy: bool) -> Vec<i32> {
    let mut after = area.to_vec();
    let rows = |target, left, right| Rows { stride: p.stride, width: p.width, target, left, right };
    assert_eq!(predict_row(&mut after, rows(p.high, p.low, p.right)), 0);
    assert_eq!(update_row(&mut after, rows(p.low, p.before, p.high)), 0);
    if copy {
        after.copy_within(p.high * p.stride..p.high * p.stride + p.width, p.before * p.stride);
    }
    after
}

fn check(area: &[i32], p: Pair) {
    for copy in [false, true] {
        let mut lent = Guarded::new(area);
        let answer = if copy { lift_and_copy(lent.lent(), p) } else { lift_pair(lent.lent(), p) };
        let fits = fit(area.len(), p);
        assert_eq!(answer, if fits { 0 } else { 5 }, "{p:?} in {} numbers", area.len());
        let after = if fits { lifted(area, p, copy) } else { area.to_vec() };
        assert_eq!(lent.content(), after, "{p:?} in {} numbers", area.len());
    }
}

fn words(random: &mut Random, n: usize) -> Vec<i32> {
    (0..n).map(|_| random.word()).collect()
}

#[test]
fn any_rows_of_any_width() {
    let mut random = Random::new(1);
    for width in [0, 1, 2, 3, 4, 15, 16, 17, 65, 1_000] {
        for more in [0, 1] {
            let stride = width + more;
            let area = words(&mut random, 3 * stride + width);
            for rows in 0..4_usize.pow(4) {
                let [high, low, right, before] = [rows % 4, rows / 4 % 4, rows / 16 % 4, rows / 64];
                check(&area, Pair { stride, width, high, low, right, before });
            }
        }
    }
}

#[test]
fn what_does_not_fit_is_turned_away() {
    let area = [7; 40];
    let some = [0, 1, 3, 4, 9, 10, 40, 1 << 32, 1 << 63, usize::MAX];
    for a in some {
        for b in some {
            for width in [0, 1, 4, 40, a] {
                check(&area, Pair { stride: a, width, high: b, low: 0, right: 0, before: 0 });
                check(&area, Pair { stride: a, width, high: 1, low: b, right: 0, before: 0 });
                check(&area, Pair { stride: a, width, high: 1, low: 0, right: b, before: 0 });
                check(&area, Pair { stride: a, width, high: 1, low: 0, right: 0, before: b });
            }
        }
    }
}
