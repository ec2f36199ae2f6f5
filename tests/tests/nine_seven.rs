//! The calls of the integer 9/7: lines that start at an even and at an odd coordinate, every length to 70 and some beyond, against document
//! 02's formulas, and its row calls, number by number.
use terrain::raw::{ccsds_line_backward as line_backward, ccsds_line_forward as line_forward};
use terrain_tests::areas::{lengths, lines, Guarded};
use terrain_tests::test_exports::nine_seven_calls::Level;
use terrain_tests::test_exports::{nine_seven_calls, Rows};
use terrain_tests::random::Random;
use terrain_tests::{grid, nine_seven};

/// Only the parity of a start counts.
const STARTS: [usize; 6] = [0, 1, 2, 65_535, usize::MAX - 1, usize::MAX];

fn parity(start: usize) -> i64 {
    (start % 2) as i64
}

/// The line or the values in `lent`, one of them at each length and start.
fn each(check: impl Fn(&[i32], usize)) {
    for n in lengths() {
        for lent in lines(n) {
            for start in STARTS {
                check(&lent, start);
            }
        }
    }
}

#[test]
fn from_area_to_area_it_is_the_mirrored_line_lifted() {
    each(|lent, start| {
        let (n, i0) = (lent.len(), parity(start));
        for surplus in [0, 3] {
            let mut out = Guarded::unset(n + surplus);
            assert_eq!(line_forward(lent, start, out.lent()), 0);
            assert_eq!(out.content()[..n], grid::in_halves(&nine_seven::forward(lent, i0), i0), "{n} numbers from {start}");
            assert!(out.is_unset_from(n), "the surplus is touched");
            let mut out = Guarded::unset(n + surplus);
            match nine_seven::backward(&grid::interleaved(lent, i0), i0) {
                Some(line) => {
                    assert_eq!(line_backward(lent, start, out.lent()), 0);
                    assert_eq!(out.content()[..n], line, "{n} numbers from {start}");
                    assert!(out.is_unset_from(n), "the surplus is touched");
                }
                None => {
                    assert_eq!(line_backward(lent, start, out.lent()), 14);
                    assert!(out.is_unset_from(0), "14 and something changed");
                }
            }
        }
    });
}

#[test]
fn in_place_too() {
    each(|lent, start| {
        let (n, i0) = (lent.len(), parity(start));
        let mut area = Guarded::new(&grid::in_halves(lent, i0));
        nine_seven_calls::lift(area.lent(), start);
        assert_eq!(area.content(), grid::in_halves(&nine_seven::forward(lent, i0), i0), "{n} numbers from {start}");

        let mut area = Guarded::new(lent);
        let answer = nine_seven_calls::unlift(area.lent(), start);
        match nine_seven::backward(&grid::interleaved(lent, i0), i0) {
            Some(line) => assert_eq!((answer, area.content()), (0, &grid::in_halves(&line, i0)[..]), "{n} numbers from {start}"),
            None => assert_eq!((answer, area.content()), (14, lent)),
        }
    });
}

#[test]
fn there_and_back_is_the_line_and_back_and_there_the_values() {
    each(|lent, start| {
        let n = lent.len();
        let (mut between, mut again) = (vec![0; n], vec![0; n]);
        let lone = n == 1 && start % 2 == 1;
        assert_eq!(line_forward(lent, start, &mut between), 0);
        assert_eq!(line_backward(&between, start, &mut again), 0);
        if !lone || lent[0].checked_mul(2).is_some() {
            assert_eq!(again, lent);
        }
        if !lone || lent[0] % 2 == 0 {
            assert_eq!(line_backward(lent, start, &mut between), 0);
            assert_eq!(line_forward(&between, start, &mut again), 0);
            assert_eq!(again, lent);
        }
    });
}

#[test]
fn an_area_too_short_gives_5_and_stays() {
    for n in 1..=20 {
        for start in [0, 1] {
            for short in 0..n {
                for call in [line_forward, line_backward] {
                    let mut out = Guarded::unset(short);
                    assert_eq!(call(&vec![i32::MAX; n], start, out.lent()), 5);
                    assert!(out.is_unset_from(0));
                }
            }
        }
    }
}

/// Samples within M give values within (9M + 2) / 4: no line here passes it, and two directions no more than 6M.
#[test]
fn the_range_of_a_line() {
    let mut random = Random::new(3);
    for m in [0, 1, 2, 7, 65_535, 393_210] {
        for n in 1..=12 {
            for start in [0, 1] {
                for _ in 0..50 {
                    let line: Vec<i32> = (0..n).map(|_| if random.word() < 0 { -m } else { m }).collect();
                    let most = |values: &[i32]| values.iter().map(|v| v.unsigned_abs()).max().unwrap_or(0) as i64;
                    let values = nine_seven::forward(&line, start);
                    assert!(most(&values) <= (9 * m as i64 + 2) / 4);
                    assert!(most(&nine_seven::forward(&values, start)) <= 6 * m as i64);
                }
            }
        }
    }
}

/// A row and those that it goes by, each formula number by number; 5 and nothing changed where one does not fit.
#[test]
fn the_row_calls() {
    let mut random = Random::new(2);
    let foretold = |a: i128, b: i128, c: i128, e: i128| (9 * (a + b) - (c + e) + 8).div_euclid(16);
    for _ in 0..4000 {
        let pick = |random: &mut Random, n: u32| (random.word() as u32 % n) as usize;
        let len = pick(&mut random, 60);
        let area: Vec<i32> = (0..len).map(|_| random.word()).collect();
        let (stride, width) = (pick(&mut random, 9), pick(&mut random, 9));
        let rows: Vec<usize> = (0..5).map(|_| pick(&mut random, 7)).collect();
        let r = Rows { stride, width, target: rows[0], left: rows[1], right: rows[2] };
        let fit = |of: &[usize]| width <= stride && of.iter().all(|t| t * stride + width <= len);
        let old = |t: usize, i: usize| area[t * stride + i] as i128;
        for call in 0..4 {
            let mut lent = Guarded::new(&area);
            let answer = match call {
                0 => nine_seven_calls::predict_row(lent.lent(), r, rows[3], rows[4]),
                1 => nine_seven_calls::unpredict_row(lent.lent(), r, rows[3], rows[4]),
                2 => nine_seven_calls::update_row(lent.lent(), r),
                _ => nine_seven_calls::unupdate_row(lent.lent(), r),
            };
            let mut after = area.clone();
            let fits = fit(if call < 2 { &rows } else { &rows[..3] });
            if fits {
                for i in 0..width {
                    let of = |k: usize| old(rows[k], i);
                    let sum = match call {
                        0 => of(0) - foretold(of(1), of(2), of(3), of(4)),
                        1 => of(0) + foretold(of(1), of(2), of(3), of(4)),
                        2 => of(0) - (2 - of(1) - of(2)).div_euclid(4),
                        _ => of(0) + (2 - of(1) - of(2)).div_euclid(4),
                    };
                    after[rows[0] * stride + i] = sum.rem_euclid(1 << 32) as u32 as i32;
                }
            }
            assert_eq!((answer, lent.content()), (if fits { 0 } else { 5 }, &after[..]), "call {call}, {r:?} of {rows:?} in {len} numbers");
        }
    }
}

/// The columns of an area whose rows are `stride` apart, and the area with others in their place.
fn columns(area: &[i32], l: Level) -> Vec<Vec<i32>> {
    (0..l.width).map(|c| (0..l.height).map(|r| area[r * l.stride + c]).collect()).collect()
}

fn with_columns(area: &[i32], l: Level, columns: &[Vec<i32>]) -> Vec<i32> {
    let mut changed = area.to_vec();
    for (c, column) in columns.iter().enumerate() {
        for (r, x) in column.iter().enumerate() {
            changed[r * l.stride + c] = *x;
        }
    }
    changed
}

/// Rows in halves, each column by itself, and back in their own order; what lies beside the columns stays.
#[test]
fn all_columns_are_lifted_as_lines() {
    let mut random = Random::new(9_7_3);
    for height in 1..=21 {
        for width in [0, 1, 2, 3, 4, 5, 8, 17] {
            for stride in [width, width + 3] {
                for y in STARTS {
                    let l = Level { stride, width, y, height };
                    let n = (height - 1) * stride + width;
                    let whole: Vec<i32> = (0..n + 2).map(|_| random.word() >> (8 * (height % 3))).collect();
                    let i0 = parity(y);

                    let mut area = Guarded::new(&whole);
                    assert_eq!(nine_seven_calls::lift_columns(area.lent(), l), 0);
                    let expected: Vec<_> = columns(&whole, l)
                        .iter()
                        .map(|halves| grid::in_halves(&nine_seven::forward(&grid::interleaved(halves, i0), i0), i0))
                        .collect();
                    assert_eq!(area.content(), with_columns(&whole, l, &expected), "{l:?}");

                    let mut area = Guarded::new(&whole);
                    let answer = nine_seven_calls::unlift_columns(area.lent(), l);
                    match columns(&whole, l).iter().map(|c| nine_seven::backward(c, i0)).collect::<Option<Vec<_>>>() {
                        Some(expected) => {
                            assert_eq!(answer, 0, "{l:?}");
                            assert_eq!(area.content(), with_columns(&whole, l, &expected), "{l:?}");
                        }
                        None => {
                            assert_eq!(answer, 14, "{l:?}");
                            assert_eq!(area.content(), whole, "14 and something changed");
                        }
                    }
                }
            }
        }
    }
}

/// One number too few, a stride too short, a row too far.
#[test]
fn columns_that_do_not_fit_give_five() {
    let l = Level { stride: 4, width: 3, y: 0, height: 5 };
    for (n, l) in [(18, l), (19, Level { stride: 2, ..l }), (19, Level { height: usize::MAX, ..l }), (19, Level { stride: usize::MAX, ..l })] {
        let whole: Vec<i32> = (0..n).collect();
        for call in [nine_seven_calls::lift_columns, nine_seven_calls::unlift_columns] {
            let mut area = Guarded::new(&whole);
            assert_eq!(call(area.lent(), l), 5, "{l:?}");
            assert_eq!(area.content(), whole);
        }
    }
}
