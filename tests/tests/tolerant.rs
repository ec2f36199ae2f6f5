//! The tolerant reader (document 02, Q-10) against a second reading of what it rebuilds (`tolerant`) and the second steps: small maps exhaustively, extreme
//! heights, planes of no map, and the numbers of its state.
use terrain::raw::{self, State};
use terrain::{error_bound, round, Shape};
use terrain_tests::areas::Guarded;
use terrain_tests::maps::{self, MAX_HEIGHT, MAX_LEVELS, MAX_WIDTH};
use terrain_tests::order::{self, Step};
use terrain_tests::play::{damaged, Play, ADMISSION, DRAWN, ENDED, HEIGHT, SURPLUS};
use terrain_tests::random::Random;
use terrain_tests::reader::{self, Want};
use terrain_tests::tolerant::{figure, rebuilt, rounded, STEPS};

/// The rounded plane of a map, by the library and by the second reading.
fn rounded_plane(heights: &[u16], s: Shape, step: usize) -> Vec<i32> {
    let exact = maps::forward(heights, s);
    let mut plane = exact.clone();
    assert_eq!(round(&mut plane, s, step), Ok(()));
    assert_eq!(plane, rounded(&exact, s, step));
    plane
}

/// "From the rounded plane of a map, it draws all rows and no height is off from that map by more than level 1's figure": the largest difference.
fn near_enough(heights: &[u16], drawn: &[u16], s: Shape, step: usize) -> usize {
    assert_eq!(drawn.len(), heights.len(), "{s:?} by {step}");
    let most = heights.iter().zip(drawn).map(|(a, b)| usize::from(a.abs_diff(*b))).max().expect("a map has a height");
    assert!(most <= figure(s.levels, step), "{s:?} by {step}: {most}");
    assert!(step > 1 || drawn == heights, "a step of 1 rounds nothing");
    most
}

/// A map rounded and read, with calls at wrong moments in between.
fn rounded_ground(heights: &[u16], s: Shape, step: usize, random: &mut Random) -> usize {
    let plane = rounded_plane(heights, s, step);
    let mut play = Play::tolerant(&plane, s);
    assert_eq!(play.run(random), 0, "{s:?} by {step}");
    assert_eq!(reader::want(&play.state), Ok(Want::Done));
    near_enough(heights, &play.drawn, s, step)
}

/// Fed as it wants from a plane, by the bare calls and nothing else: the heights drawn until Done.
fn drawn_from(plane: &[i32], s: Shape) -> Vec<u16> {
    let (mut state, mut store, mut want) = ([0; 16], vec![9; order::store_length(s)], [0; 5]);
    let (mut heights, mut row) = (Vec::new(), vec![0; s.width]);
    assert_eq!(raw::tolerant_set_up(&mut state, s.width, s.height, s.levels, &mut store), 0);
    loop {
        assert_eq!(raw::reader_want(&state, &mut want), 0);
        let [kind, level, band, number, length] = want.map(|n| n as usize);
        match kind {
            0 => assert_eq!(raw::reader_feed(&mut state, &mut store, &plane[order::place(s, order::BandRow { level, band, row: number, length })]), 0),
            1 => {
                assert_eq!(raw::reader_draw(&mut state, &mut store, &mut row, &mut 0), 0);
                heights.extend_from_slice(&row);
            }
            _ => {
                assert_eq!(kind, 2, "never Ended");
                return heights;
            }
        }
    }
}

/// What the second reading makes of a plane, as heights.
fn heights_of(plane: &[i32], s: Shape) -> Vec<u16> {
    rebuilt(plane, s)[0].concat().into_iter().map(|v| u16::try_from(v).expect("limited to a height")).collect()
}

/// Every map of a size over a few heights.
fn all_maps(n: usize, among: &'static [u16]) -> impl Iterator<Item = Vec<u16>> {
    (0..among.len().pow(n as u32)).map(move |number| (0..n).map(|i| among[number / among.len().pow(i as u32) % among.len()]).collect())
}

fn exhaust(width: usize, height: usize, among: &'static [u16], steps: &[usize]) -> usize {
    let mut cases = 0;
    for levels in 1..=MAX_LEVELS {
        let s = Shape::new(width, height, levels);
        for heights in all_maps(width * height, among) {
            for &step in steps {
                let plane = rounded_plane(&heights, s, step);
                let drawn = drawn_from(&plane, s);
                assert_eq!(drawn, heights_of(&plane, s), "{heights:?} of {s:?} by {step}");
                near_enough(&heights, &drawn, s, step);
                cases += 1;
            }
        }
    }
    cases
}

#[test]
fn small_maps_exhaustively() {
    let mut cases = 0;
    // a few heights near both ends
    for (width, height) in [(1, 1), (1, 2), (2, 1), (1, 3), (3, 1), (2, 2), (1, 4), (4, 1)] {
        cases += exhaust(width, height, &[0, 1, 6, 10, 65_528, 65_535], &[1, 2, 3, 8, 64]);
    }
    // the largest steps
    for (width, height) in [(2, 3), (3, 2), (1, 7), (7, 1), (3, 3), (2, 5), (5, 2)] {
        cases += exhaust(width, height, &[0, 65_535], &[2, 7, 64]);
    }
    // low ground, where rounding reaches below 0
    for (width, height) in [(1, 5), (5, 1), (2, 3), (3, 2)] {
        cases += exhaust(width, height, &[0, 1, 2, 9], &[4, 13, 64]);
    }
    assert!(cases > 250_000, "{cases}");
}

#[test]
fn every_small_size_and_every_step() {
    let mut random = Random::new(81);
    for (width, height) in (1..=9).flat_map(|w| (1..=9).map(move |h| (w, h))) {
        for levels in 1..=MAX_LEVELS {
            for heights in maps::maps(width, height) {
                let steps = [1, 1 + random.below(64), STEPS[random.below(STEPS.len())], 64];
                for step in steps {
                    rounded_ground(&heights, Shape::new(width, height, levels), step, &mut random);
                }
            }
        }
    }
    // every step of 02
    let mut most = 0;
    for step in 1..=64 {
        for levels in 1..=MAX_LEVELS {
            for heights in maps::maps(7, 6) {
                most = most.max(rounded_ground(&heights, Shape::new(7, 6, levels), step, &mut random));
            }
        }
    }
    assert!(most > 100, "rounding is seen: {most}");
}

#[test]
fn larger_and_odd_sizes() {
    let mut random = Random::new(82);
    let mut sizes: Vec<(usize, usize)> = (0..60).map(|_| (1 + random.below(130), 1 + random.below(70))).collect();
    sizes.extend((0..12).map(|_| (1 + random.below(MAX_WIDTH), 1 + random.below(12))));
    sizes.extend([(2_049, 1), (2_049, 9), (2_048, 6), (1_025, 34), (1, 9_999), (2, 4_001)]);
    for (width, height) in sizes {
        for levels in 1..=MAX_LEVELS {
            let mut all = maps::maps(width, height);
            let heights = all.swap_remove(random.below(all.len()));
            rounded_ground(&heights, Shape::new(width, height, levels), 1 + random.below(64), &mut random);
        }
    }
}

/// Ground about 0 and about 65,535, where what is rebuilt leaves the heights' range before it is limited; a strict reader gives 14 there.
#[test]
fn extreme_heights() {
    let mut random = Random::new(83);
    let (mut limited, mut cases) = (0, 0);
    for _ in 0..6_000 {
        let (width, height) = (1 + random.below(12), 1 + random.below(12));
        let s = Shape::new(width, height, 1 + random.below(MAX_LEVELS));
        let (ends, depth) = ([&[0][..], &[65_535], &[0, 65_535]][random.below(3)], 1 + random.below(40));
        let one = |random: &mut Random| {
            let (end, off) = (ends[random.below(ends.len())], random.below(depth) as u16);
            if end == 0 { off } else { end - off }
        };
        let heights: Vec<u16> = (0..width * height).map(|_| one(&mut random)).collect();
        let step = 1 + random.below(64);
        rounded_ground(&heights, s, step, &mut random);
        let plane = rounded_plane(&heights, s, step);
        limited += usize::from(Play::new(&plane, s).run(&mut random) == 14);
        cases += 1;
    }
    assert!(limited > cases / 4, "{limited} of {cases} need a limit");
}

/// "Planes of no map": any numbers within question 7's ranges are turned into heights, and every row is drawn.
#[test]
fn any_numbers_in_their_ranges() {
    let mut random = Random::new(84);
    let mut cases = 0;
    for turn in 0..20_000 {
        let (a, b) = (1 + random.below(9), 1 + random.below(9));
        let (width, height) = [(a, b), (1, b), (1, 4 * b + a), (a, 1), (4 * a + b, b)][random.below(5)];
        let s = Shape::new(width, height, 1 + random.below(MAX_LEVELS));
        let kind = random.below(4);
        let plane: Vec<i32> = (0..width * height)
            .map(|i| {
                let reach = maps::range(s, maps::level_at(s, i)) as i32;
                match kind {
                    0 => [reach, -reach][random.below(2)],
                    1 => [reach, -reach, 0, 1, -1, reach - 1, 1 - reach][random.below(7)],
                    2 => random.below(2 * reach as usize + 1) as i32 - reach,
                    _ => (random.below(400_000) as i32 - 200_000).clamp(-reach, reach),
                }
            })
            .collect();
        assert!(maps::in_range(&plane, s));
        if turn % 2 == 0 {
            assert_eq!(Play::tolerant(&plane, s).run(&mut random), 0, "{s:?}");
        } else {
            assert_eq!(drawn_from(&plane, s), heights_of(&plane, s), "{s:?}");
        }
        cases += 1;
    }
    assert_eq!(cases, 20_000);
}

/// A number past its range is 7, in the feed of its row, and nothing else is ever refused.
#[test]
fn damaged_planes() {
    let mut random = Random::new(85);
    let mut seen = [0; 15];
    for _ in 0..24_000 {
        let (a, b) = (1 + random.below(9), 1 + random.below(9));
        let (width, height) = [(a, b), (1, b), (1, 4 * b + a), (a, 1)][random.below(4)];
        let s = Shape::new(width, height, 1 + random.below(MAX_LEVELS));
        let plane = damaged(s, &mut random);
        let mut play = Play::tolerant(&plane, s);
        let number = play.run(&mut random);
        assert_eq!(number, if maps::in_range(&plane, s) { 0 } else { 7 }, "{s:?}");
        // 7 leaves the reader as it was: the right row may still be fed
        if let (7, Some(Step::Feed(r))) = (number, play.step()) {
            assert_eq!(reader::feed(&mut play.state, play.store.lent(), &vec![0; r.length]), Ok(()));
        }
        seen[number as usize] += 1;
    }
    assert!(seen[0] > 2_000 && seen[7] > 2_000, "each answer is tried often: {seen:?}");
}

/// A column 0, 0, 10 at one level by a step of 8.
#[test]
fn the_worked_case() {
    let s = Shape::new(1, 3, 1);
    let plane = rounded_plane(&[0, 0, 10], s, 8);
    assert_eq!(plane, [-2, 8, 0]);
    assert_eq!(drawn_from(&plane, s), [0, 4, 8], "the even rows are limited before the odd one is rebuilt from them");
    assert_eq!(error_bound(1, 8), Ok(38));
    assert_eq!(Play::new(&plane, s).run(&mut Random::new(86)), 14, "a strict reader");
}

/// Only LL values and heights are limited, and nothing between rows and columns; each level has its own limit, and the next is rebuilt from what it left.
#[test]
fn what_is_limited() {
    // a row 0 | 65,536 gives -32,768 and 32,768: were its even value limited at once, the odd one would be 65,535
    assert_eq!(drawn_from(&[0, 65_536], Shape::new(2, 1, 1)), [0, 32_768]);
    assert_eq!(drawn_from(&[0, 65_536], Shape::new(1, 2, 1)), [0, 65_535], "a column's is");
    // at two levels: level 1 is 1,572,840 and, from 262,140, -786,420; the heights are rebuilt from 262,140 and -262,140
    let s = Shape::new(1, 4, 2);
    let plane = [1_048_560, -1_048_560, 0, 0];
    assert_eq!(rebuilt(&plane, s)[1].concat(), [262_140, -262_140]);
    assert_eq!(drawn_from(&plane, s), [65_535, 32_767, 0, 0]);
    for plane in [[1_048_560, 0, 0, 0], [-1_048_560, 0, 0, 0], [262_140, -1_048_560, 262_140, -262_140], [-1_048_560, 1_048_560, -262_140, 262_140]] {
        assert_eq!(drawn_from(&plane, s), heights_of(&plane, s));
    }
}

/// Up to the last row of the longest map there is.
#[test]
fn the_row_limit() {
    let mut random = Random::new(87);
    for (width, levels) in [(1, 1), (1, 5), (2, 3), (5, 2), (9, 5)] {
        let s = Shape::new(width, 3 * (4 << levels) - 1, levels);
        for heights in maps::maps(width, s.height) {
            let plane = rounded_plane(&heights, s, 1 + random.below(64));
            let mut play = Play::tolerant(&plane, s).near_the_limit();
            assert_eq!(play.run(&mut random), 0);
            assert_eq!(play.state[HEIGHT..=DRAWN], [MAX_HEIGHT as u64, levels as u64, MAX_HEIGHT as u64]);
        }
    }
}

/// 2, 3, 4, 5, in this order; nothing is changed. Origin and filter of the wrapper's shape are not read.
#[test]
fn the_questions_of_set_up() {
    let refused = |width: usize, height: usize, levels: usize, len: usize, number: u32| {
        let mut store = Guarded::unset(len);
        let s = Shape::new(width, height, levels).at(3, 65_535).by(9);
        assert_eq!(reader::tolerant_set_up(&mut [7; 16], s, store.lent()), Err(number), "{s:?}, {len}");
        assert!(store.is_unset_from(0));
    };
    let m = usize::MAX;
    for len in [0, 8, 9_000] {
        for height in [0, 1, MAX_HEIGHT, MAX_HEIGHT + 1, m] {
            for levels in [0, 1, 5, 6, m] {
                for width in [0, MAX_WIDTH + 1, 1 << 32, (1 << 32) + 1, m] {
                    refused(width, height, levels, len, 2);
                }
                if !(1..=MAX_HEIGHT).contains(&height) {
                    refused(3, height, levels, len, 3);
                } else if !(1..=MAX_LEVELS).contains(&levels) {
                    refused(3, height, levels, len, 4);
                }
            }
        }
        refused(1, 1, (1 << 32) + 1, len, 4);
    }
    for width in [1, 2, 3, 9, 17, MAX_WIDTH] {
        for height in [1, 2, MAX_HEIGHT] {
            for levels in 1..=MAX_LEVELS {
                let s = Shape::new(width, height, levels);
                let needed = order::store_length(s);
                refused(width, height, levels, needed - 1, 5);
                refused(width, height, levels, 0, 5);
                let mut store = Guarded::unset(needed + SURPLUS);
                let (mut state, mut strict) = ([7; 16], [7; 16]);
                assert_eq!(reader::tolerant_set_up(&mut state, s, store.lent()), Ok(()));
                assert!(store.content()[..needed].iter().all(|&v| v == 0) && store.is_unset_from(needed));
                // the strict reader's numbers, but for the one that says which it is
                assert_eq!(reader::set_up(&mut strict, s, store.lent()), Ok(()));
                assert_eq!(strict[ADMISSION..], [0, 0]);
                strict[ADMISSION] = 1;
                assert_eq!(state, strict, "{s:?}");
            }
        }
    }
}

/// All three calls on an array: 1 from each, or from none.
fn question_1(state: &State, store: &mut [i32]) -> bool {
    let (mut kept, before) = (*state, store.to_vec());
    let want = reader::want(state);
    if want.is_ok() {
        assert_ne!(want, Ok(Want::Ended));
        return false;
    }
    assert_eq!(want, Err(1));
    assert_eq!(reader::feed(&mut kept, store, &[0]), Err(1));
    assert_eq!(reader::draw(&mut kept, store, &mut [0; 3]), Err(1));
    assert!(kept == *state && store == before, "a refusal changes nothing");
    true
}

/// Place 14 is 0 or 1; with 1 `ended`, `x`, `y`, `filter`, `stop` (and so `spare`, and a reader without levels) are 0.
#[test]
fn question_1_of_the_admission() {
    for (width, height, levels) in [(3, 9, 1), (3, 9, 2), (1, 1, 5), (3, 2, 4)] {
        let s = Shape::new(width, height, levels);
        let plane = maps::forward(&maps::maps(width, height)[4], s);
        let mut play = Play::tolerant(&plane, s);
        let mut store = vec![0; 200];
        loop {
            let state = play.state;
            assert!(!question_1(&state, &mut store), "{state:?}");
            for wrong in [2, 3, 255, 256, 257, 1 << 32, (1 << 32) + 1, u64::MAX] {
                let with = |place: usize, value: u64| State::from(std::array::from_fn(|i| if i == place { value } else { state[i] }));
                assert!(question_1(&with(ADMISSION, wrong), &mut store));
                assert!(question_1(&with(15, wrong), &mut store));
                // ended, x, y, filter, stop, spare
                for place in [ENDED, 8, 9, 11, 12, 13] {
                    assert!(question_1(&with(place, 1), &mut store), "place {place}");
                    assert!(question_1(&with(place, wrong), &mut store), "place {place}");
                    // what a strict reader may have there
                    let mut strict = with(place, 1);
                    strict[ADMISSION] = 0;
                    let fits = place < 11 || (place == 11 && levels < 5) || (place == 12 && levels < 5);
                    assert_eq!(reader::want(&strict).is_ok(), fits, "place {place} of {strict:?}");
                }
            }
            // without levels, as of a strict reader whose stop is the map's last level
            let mut last = [0; 16];
            last[..4].copy_from_slice(&[2, width as u64, height as u64, 0]);
            (last[12], last[13]) = (1, 100);
            assert!(reader::want(&last).is_ok());
            last[ADMISSION] = 1;
            assert!(question_1(&last, &mut store));
            last[12] = 0;
            assert!(question_1(&last, &mut store));
            match play.step() {
                Some(Step::Feed(r)) => assert_eq!(play.feed(&play.row(r)), Ok(())),
                Some(Step::Draw(_)) => assert_eq!(play.draw(width), Ok(width)),
                None => break,
            }
        }
    }
}

/// Wants never depend on what the store holds, and every call goes on: there is no 14 to end it.
#[test]
fn a_store_scribbled_in_between_two_calls() {
    let mut random = Random::new(88);
    let mut calls = 0;
    for _ in 0..6_000 {
        let s = Shape::new(1 + random.below(9), 1 + random.below(12), 1 + random.below(MAX_LEVELS));
        let plane = vec![0; s.width * s.height];
        let mut play = Play::tolerant(&plane, s);
        let needed = order::store_length(s);
        while let Some(step) = play.step() {
            play.want();
            if random.below(3) == 0 {
                let i = random.below(needed);
                play.store.lent()[i] = [random.word(), random.below(65_536) as i32, i32::MIN, i32::MAX][random.below(4)];
            }
            let mut out = Guarded::<u16>::unset(s.width + 1);
            match step {
                Step::Feed(r) => assert_eq!(reader::feed(&mut play.state, play.store.lent(), &vec![random.below(65_536) as i32; r.length]), Ok(())),
                Step::Draw(_) => assert_eq!(reader::draw(&mut play.state, play.store.lent(), out.lent()), Ok(s.width)),
            }
            assert!(out.is_unset_from(if matches!(step, Step::Draw(_)) { s.width } else { 0 }));
            assert!(play.store.is_unset_from(needed));
            play.at += 1;
            calls += 1;
        }
        play.want();
    }
    assert!(calls > 100_000, "{calls}");
}

/// A tolerant reader saved in the middle and gone on with: state and store are all of it.
#[test]
fn a_reader_kept_and_gone_on_with() {
    let mut random = Random::new(89);
    for _ in 0..400 {
        let s = Shape::new(1 + random.below(20), 1 + random.below(20), 1 + random.below(MAX_LEVELS));
        let heights: Vec<u16> = (0..s.width * s.height).map(|_| [0, 65_535, random.below(65_536) as u16][random.below(3)]).collect();
        let plane = rounded_plane(&heights, s, 1 + random.below(64));
        let mut play = Play::tolerant(&plane, s);
        let until = random.below(play.turns.len());
        while play.at < until {
            match play.step() {
                Some(Step::Feed(r)) => play.feed(&play.row(r)).map(|()| 0),
                _ => play.draw(s.width),
            }
            .unwrap();
        }
        let (state, store) = (play.state, play.store.content().to_vec());
        assert_eq!(play.run(&mut random), 0);
        let drawn = play.drawn.clone();
        let mut again = Play::tolerant(&plane, s);
        (again.state, again.at, again.drawn) = (state, until, drawn[..state[DRAWN] as usize * s.width].to_vec());
        again.store.lent().copy_from_slice(&store);
        assert_eq!(again.run(&mut random), 0);
        assert_eq!(again.drawn, drawn);
    }
}
