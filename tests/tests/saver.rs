//! The saver against a second writer of docs/FORMAT.md: the worked cases; random maps by both filters, from any origin, rounded by any step,
//! into areas of any lengths; rows that no file has; wild states and short planes.
use terrain::raw::{self, SaverState};
use terrain::{round, Call, Saver, Shape};
use terrain_tests::areas::Guarded;
use terrain_tests::maps::{self, level_at, range};
use terrain_tests::order::{place, LL};
use terrain_tests::random::Random;
use terrain_tests::{filter, ground, refusal, UNSET};

/// The bytes that a saver writes, in areas whose lengths are given one after the other, an empty one now and then too; each area is guarded.
fn saved(plane: &[i32], s: Shape, step: usize, mut length: impl FnMut() -> usize) -> Vec<u8> {
    let mut saver = Saver::new(s, step).expect("a shape of a file");
    let mut file = Vec::new();
    loop {
        let mut area = Guarded::<u8>::unset(length());
        let room = area.lent().len();
        let written = saver.save(plane, area.lent()).expect("a row of a file").to_vec();
        assert!(area.is_unset_from(written.len()), "the rest of the area stays");
        assert_eq!(area.content()[..written.len()], written);
        file.extend_from_slice(&written);
        if written.len() < room {
            // complete: nothing more comes
            let done = saver.state();
            assert_eq!(saver.save(plane, &mut [0; 9]), Ok(&[][..]));
            assert_eq!(saver.state(), done);
            return file;
        }
    }
}

/// A whole file at once, byte by byte, and in areas cut at random.
fn check(plane: &[i32], s: Shape, step: usize, random: &mut Random) {
    let expected = ground::file(plane, s, step);
    assert_eq!(saved(plane, s, step, || expected.len() + 1), expected, "{s:?} by {step}");
    assert_eq!(saved(plane, s, step, || 1), expected, "{s:?} by {step}, byte by byte");
    let most = [2, 5, 20, 70, 1_000][random.below(5)];
    assert_eq!(saved(plane, s, step, || random.below(most)), expected, "{s:?} by {step}, up to {most}");
}

#[test]
fn the_worked_cases() {
    for (s, step, heights, bytes) in ground::worked() {
        let mut plane = maps::forward(&heights, s);
        assert_eq!(round(&mut plane, s, step), Ok(()));
        assert_eq!(saved(&plane, s, step, || 100), bytes);
        assert_eq!(saved(&plane, s, step, || 1), bytes);
    }
}

#[test]
fn small_maps_anywhere() {
    let mut random = Random::new(81);
    for (width, height) in (1..=7).flat_map(|w| (1..=7).map(move |h| (w, h))) {
        for (f, levels) in filter::kinds() {
            let (x, y) = maps::origin(&mut random);
            let s = Shape::new(width, height, levels).at(x, y).by(f);
            let kinds = maps::maps(width, height);
            check(&maps::forward(&kinds[random.below(kinds.len())], s), s, 1, &mut random);
        }
    }
}

#[test]
fn larger_maps() {
    let mut random = Random::new(82);
    for turn in 0..60 {
        let (width, height) = if turn % 6 == 0 { (1 + random.below(2_049), 1 + random.below(5)) } else { (1 + random.below(90), 1 + random.below(60)) };
        let (f, levels) = filter::kinds().nth(random.below(9)).expect("nine kinds");
        let (x, y) = maps::origin(&mut random);
        let s = Shape::new(width, height, levels).at(x, y).by(f);
        let kinds = maps::maps(width, height);
        check(&maps::forward(&kinds[random.below(kinds.len())], s), s, 1, &mut random);
    }
}

#[test]
fn rounded_planes() {
    let mut random = Random::new(83);
    for _ in 0..200 {
        let (width, height, step) = (1 + random.below(40), 1 + random.below(30), 2 + random.below(63));
        let s = Shape::new(width, height, 1 + random.below(5));
        let kinds = maps::maps(width, height);
        let mut plane = maps::forward(&kinds[random.below(kinds.len())], s);
        assert_eq!(round(&mut plane, s, step), Ok(()));
        check(&plane, s, step, &mut random);
    }
}

/// Planes that no map has, within the ranges: numbers of every width, the largest too; the surplus of the plane is not read.
#[test]
fn numbers_of_every_width() {
    let mut random = Random::new(84);
    for _ in 0..200 {
        let (f, levels) = filter::kinds().nth(random.below(9)).expect("nine kinds");
        let s = Shape::new(1 + random.below(70), 1 + random.below(20), levels).by(f);
        let number = |i: usize, random: &mut Random| {
            let most = range(s, level_at(s, i)).min(1 << random.below(28));
            [0, most, -most, random.below(2 * most as usize + 1) as i64 - most][random.below(4)] as i32
        };
        let mut plane: Vec<i32> = (0..s.width * s.height).map(|i| number(i, &mut random)).collect();
        plane.extend([i32::MAX, i32::MIN]);
        check(&plane, s, 1, &mut random);
    }
}

/// A number out of its range gives 7, one that is no multiple of the step 22, before its row: what stands before it is written, and then the call answers
/// the number and changes nothing. Put right, the saver goes on.
#[test]
fn rows_that_no_file_has() {
    let mut random = Random::new(85);
    for turn in 0..300 {
        let s = Shape::new(1 + random.below(40), 1 + random.below(20), 1 + random.below(5));
        let step = if turn % 2 == 0 { 1 } else { 2 + random.below(63) };
        let mut plane = maps::forward(&maps::maps(s.width, s.height)[4], s);
        assert_eq!(round(&mut plane, s, step), Ok(()));
        let rows = ground::rows(s);
        let at = random.below(rows.len());
        let (r, right) = (rows[at], plane.clone());
        let i = place(s, r).start + random.below(r.length);
        let most = range(s, r.level) as i32;
        let (wrong, number) = if step == 1 || r.band == LL { ([most + 1, -most - 1, i32::MIN, i32::MAX][random.below(4)], 7) } else { (plane[i] + 1, 22) };
        plane[i] = wrong;
        let before = ground::body(&right, s, step, &rows[..at]);
        let (mut saver, mut file) = (Saver::new(s, step).expect("a shape"), Vec::new());
        let mut area = vec![0; 1 + random.below(before.len() + 40)];
        let answer = loop {
            match saver.save(&plane, &mut area) {
                Ok(bytes) => file.extend_from_slice(bytes),
                Err(question) => break question,
            }
        };
        assert_eq!((answer.call, answer.number), (Call::Save, number), "{s:?} by {step}, row {r:?}");
        assert_eq!(file, before);
        // nothing is changed: array, area and count
        let (mut state, mut guarded, mut written) = (saver.state(), Guarded::<u8>::unset(50), UNSET);
        assert_eq!(raw::save(&mut state, &plane, guarded.lent(), &mut written), number);
        assert!(state == saver.state() && guarded.is_unset_from(0) && written == UNSET);
        while let bytes @ [_, ..] = saver.save(&right, &mut area).expect("put right") {
            file.extend_from_slice(bytes);
        }
        assert_eq!(file, ground::file(&right, s, step));
    }
}

/// 2, 3, 18, 4, 20 and 22, in this order; the array stays.
#[test]
fn set_ups_turned_away() {
    let plain = Shape::new(9, 9, 2);
    let refused = |s: Shape, step: usize, number: u32| {
        assert_eq!(Saver::new(s, step), refusal(Call::SaveSetUp, number), "{s:?} by {step}");
        let mut state = [UNSET as u64; 32];
        assert_eq!(raw::save_set_up(&mut state, s, step), number);
        assert_eq!(state, [UNSET as u64; 32]);
    };
    for width in [0, 2_050, usize::MAX] {
        refused(Shape::new(width, 0, 0).by(7), 0, 2);
    }
    for height in [0, maps::MAX_HEIGHT + 1, usize::MAX] {
        refused(Shape::new(2_049, height, 0).by(7), 0, 3);
    }
    for f in filter::UNKNOWN {
        refused(Shape::new(1, maps::MAX_HEIGHT, 0).by(f), 0, 18);
    }
    for (f, levels) in [(0, 0), (0, 6), (1, 5), (0, usize::MAX)] {
        refused(Shape::new(9, 9, levels).by(f), 0, 4);
    }
    for step in [0, 65, 256 + 1, usize::MAX] {
        refused(plain.at(1, 0), step, 20);
    }
    for s in [plain.at(1, 0), plain.at(0, 65_535), plain.by(1), plain.at(2, 2).by(1)] {
        refused(s, 2, 22);
        assert!(Saver::new(s, 1).is_ok());
    }
    assert!(Saver::new(plain, 64).is_ok());
}

/// The array as docs/STATE.md has it, and what it gives as it goes.
#[test]
fn the_array() {
    let s = Shape::new(17, 300, 2).at(3, 65_535).by(1);
    let saver = Saver::new(s, 1).expect("a shape");
    let mut expected = [0; 32];
    expected[..8].copy_from_slice(&[4, 17, 300, 2, 3, 65_535, 1, 1]);
    assert_eq!(saver.state(), expected);
}

fn answered(state: &SaverState, plane: &[i32]) -> u32 {
    let (mut after, mut area, mut written) = (*state, Guarded::<u8>::unset(100), UNSET);
    let number = raw::save(&mut after, plane, area.lent(), &mut written);
    if number != 0 {
        assert!(after == *state && area.is_unset_from(0) && written == UNSET);
    } else {
        assert!(written <= 100 && area.is_unset_from(written));
    }
    number
}

/// 1: each number out of its range. 5: a plane that is one number short. No wild state writes outside its area.
#[test]
fn wild_states() {
    let s = Shape::new(33, 5, 2);
    let plane = maps::forward(&maps::maps(33, 5)[4], s);
    let mut saver = Saver::new(s, 1).expect("a shape");
    let mut area = [0; 60];
    loop {
        let state = saver.state();
        assert_eq!(answered(&state, &plane), 0);
        assert_eq!(answered(&state, &plane[1..]), 5);
        let with = |i: usize, v: u64| {
            let mut other = state;
            other[i] = v;
            other
        };
        let most = [(1, 2_049), (2, maps::MAX_HEIGHT as u64), (3, 5), (4, 65_535), (5, 65_535), (6, 1), (7, 64)];
        let counts = [(12, 2_049), (13, 57), (14, 4_293_501_226), (15, 3)];
        for (i, v) in most.into_iter().chain(counts) {
            for wild in [v + 1, v + 65_536, v + (1 << 32), u64::MAX] {
                assert_eq!(answered(&with(i, wild), &plane), 1, "number {i} is {wild}");
            }
        }
        for i in [1, 2, 3, 7] {
            assert_eq!(answered(&with(i, 0), &plane), 1, "number {i} is 0");
        }
        for i in (0..1).chain(16..32) {
            for wild in [1, 2, 3, 5, 4 + (1 << 32), u64::MAX] {
                assert_eq!(answered(&with(i, wild), &plane), 1, "number {i} is {wild}");
            }
        }
        for i in 8..12 {
            for wild in [0, 1, 2, 3, 4, 5, 6, 1 << 33, u64::MAX] {
                assert!([0, 7].contains(&answered(&with(i, wild), &plane)));
            }
        }
        if saver.save(&plane, &mut area).expect("a row of a file").is_empty() {
            return;
        }
    }
}

/// States of the ranges at random over planes of anything: an answer, and nothing outside the area.
#[test]
fn scribbled_states() {
    let mut random = Random::new(86);
    for _ in 0..20_000 {
        let s = Shape::new(1 + random.below(40), 1 + random.below(9), 1 + random.below(5));
        let plane: Vec<i32> = (0..s.width * s.height).map(|_| if random.below(9) == 0 { random.word() } else { random.below(999) as i32 }).collect();
        let mut state = Saver::new(s, 1 + random.below(3)).expect("a shape").state();
        for (i, most) in [(8, 12), (9, 6), (10, 12), (11, 5), (12, 5), (13, 58), (14, 1 << 32), (15, 4)] {
            state[i] = if random.below(20) == 0 { random.bits() } else { random.below(most) as u64 };
        }
        assert!([0, 1, 7, 22].contains(&answered(&state, &plane)));
    }
}
