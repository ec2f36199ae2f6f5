//! Rounding a plane and the promised figure (document 02, Q-10) against a second reading: number by number, and level by level.
use terrain::{error_bound, raw, round, Call, Shape};
use terrain_tests::areas::Guarded;
use terrain_tests::maps::{across, down, MAX_HEIGHT, MAX_WIDTH};
use terrain_tests::random::Random;
use terrain_tests::tolerant::{figure, rounded, STEPS};
use terrain_tests::{refusal, UNSET};

/// The whole plane, LL and surplus too.
fn check(s: Shape, step: usize, before: &[i32]) {
    let n = s.width * s.height;
    let mut plane = Guarded::new(before);
    assert_eq!(round(plane.lent(), s, step), Ok(()), "{s:?} by {step}");
    let mut expected = rounded(&before[..n], s, step);
    expected.extend_from_slice(&before[n..]);
    assert_eq!(plane.content(), expected, "{s:?} by {step}");
    // rounded once more, nothing moves
    assert_eq!(round(plane.lent(), s, step), Ok(()));
    assert_eq!(plane.content(), expected, "{s:?} by {step}");
}

/// Numbers about the multiples of a step, about 0 and at the ends of a word.
fn number(random: &mut Random, step: usize) -> i32 {
    let step = step as i32;
    match random.below(6) {
        0 => random.word(),
        1 => [i32::MIN, i32::MIN + 1, i32::MAX, i32::MAX - 1][random.below(4)],
        2 => random.below(2 * step as usize + 3) as i32 - step - 1,
        3 => random.below(200) as i32 - 100,
        _ => step * (random.below(2_001) as i32 - 1_000) + random.below(3) as i32 - 1,
    }
}

#[test]
fn every_small_size_and_every_step() {
    let mut random = Random::new(71);
    for (width, height) in (1..=9).flat_map(|w| (1..=9).map(move |h| (w, h))) {
        for levels in 1..=5 {
            for step in STEPS {
                let plane: Vec<i32> = (0..width * height + random.below(4)).map(|_| number(&mut random, step)).collect();
                check(Shape::new(width, height, levels), step, &plane);
            }
        }
    }
}

#[test]
fn larger_sizes() {
    let mut random = Random::new(72);
    for turn in 0..300 {
        let (width, height) = if turn % 6 == 0 { (1 + random.below(MAX_WIDTH), 1 + random.below(9)) } else { (1 + random.below(120), 1 + random.below(90)) };
        let step = 1 + random.below(64);
        let plane: Vec<i32> = (0..width * height + random.below(9)).map(|_| number(&mut random, step)).collect();
        check(Shape::new(width, height, 1 + random.below(5)), step, &plane);
    }
}

/// Each number of a range by each step: toward zero, to a multiple, less than a step away.
#[test]
fn toward_zero() {
    let numbers: Vec<i32> = (-300..=300).chain([i32::MIN, i32::MIN + 1, -65_535, 65_535, i32::MAX - 1, i32::MAX]).collect();
    // one row at one level: the second half of it is HL
    let s = Shape::new(2 * numbers.len(), 1, 1);
    for step in STEPS {
        let mut plane = [numbers.clone(), numbers.clone()].concat();
        assert_eq!(round(&mut plane, s, step), Ok(()));
        assert_eq!(plane[..numbers.len()], numbers, "LL stays");
        for (&before, &after) in numbers.iter().zip(&plane[numbers.len()..]) {
            let (before, after) = (i64::from(before), i64::from(after));
            assert!(after % step as i64 == 0 && after.abs() <= before.abs() && (before - after).abs() < step as i64 && after * before >= 0, "{before} by {step}");
        }
    }
}

/// 2, 3, 4, 20, 5, in this order; nothing is changed. The origin and the filter of a shape are not read.
#[test]
fn turned_away() {
    let refused = |width: usize, height: usize, levels: usize, step: usize, len: usize, number: u32| {
        let mut plane = Guarded::<i32>::unset(len);
        let s = Shape::new(width, height, levels).at(3, 5).by(9);
        assert_eq!(round(plane.lent(), s, step), refusal(Call::Round, number), "{s:?} by {step}, {len}");
        assert_eq!(raw::round(plane.lent(), width, height, levels, step), number);
        assert!(plane.is_unset_from(0));
    };
    let m = usize::MAX;
    for step in [0, 1, 64, 65, m] {
        for len in [0, 6] {
            for (width, height, levels, no) in [(0, 0, 0, 2), (2_050, 2, 1, 2), (m, 2, 1, 2), (3, 0, 0, 3), (3, MAX_HEIGHT + 1, 1, 3), (3, m, 9, 3), (3, 2, 0, 4), (3, 2, 6, 4), (3, 2, m, 4)]
            {
                refused(width, height, levels, step, len, no);
            }
        }
    }
    for step in [0, 65, 1 << 32, (1 << 32) + 1, m] {
        refused(3, 2, 5, step, 0, 20);
        refused(3, 2, 5, step, 6, 20);
    }
    for step in [1, 64] {
        refused(3, 2, 5, step, 0, 5);
        refused(3, 2, 5, step, 5, 5);
        refused(MAX_WIDTH, MAX_HEIGHT, 1, step, 6, 5);
        assert_eq!(raw::round(&mut [0; 6], 3, 2, 5, step), 0);
    }
}

#[test]
fn the_figure() {
    for step in 1..=64 {
        for levels in 1..=5 {
            assert_eq!(error_bound(levels, step), Ok(figure(levels, step)), "{levels} levels by {step}");
        }
    }
    // 02's sums by hand: e 63, A 95, B 158, and 95 + 158 + 79; with e 1 A is 2, B 3, and 2 + 3 + 2
    assert_eq!((figure(1, 64), figure(1, 2), figure(2, 2), figure(5, 1)), (332, 7, 14, 0));
    for (levels, step, number) in [(0, 0, 4), (6, 1, 4), (usize::MAX, 65, 4), (1, 0, 20), (5, 65, 20), (5, usize::MAX, 20), (1, (1 << 32) + 1, 20)] {
        let mut bound = UNSET;
        assert_eq!(raw::error_bound(levels, step, &mut bound), number);
        assert_eq!(bound, UNSET, "a refusal sets no number");
        assert_eq!(error_bound(levels, step), refusal(Call::ErrorBound, number));
    }
}

/// LL is where 01 has it, whatever the level.
#[test]
fn ll_stays() {
    for (width, height) in (1..=40).map(|n| (n, 41 - n)) {
        for levels in 1..=5 {
            let s = Shape::new(width, height, levels);
            let mut plane = vec![63; width * height];
            assert_eq!(round(&mut plane, s, 64), Ok(()));
            let (w, h) = (across(s).at(levels).length, down(s).at(levels).length);
            for (i, &v) in plane.iter().enumerate() {
                assert_eq!(v, if i / width < h && i % width < w { 63 } else { 0 }, "{s:?} at {i}");
            }
        }
    }
}
