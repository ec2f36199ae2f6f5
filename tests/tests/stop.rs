//! Readers that stop at a level (document 02, Q-6) against the second transform and the second steps: all small sizes, origins, filters and stops;
//! damaged planes; and the map's own j-level transform.
use terrain::{level_size, raw, Call, Shape};
use terrain_tests::areas::Guarded;
use terrain_tests::filter::{self, FILTERS};
use terrain_tests::maps::{self, across, down, MAX_HEIGHT, MAX_LEVELS, MAX_WIDTH};
use terrain_tests::order::{self, Step};
use terrain_tests::play::{damaged, Play, DRAWN, HEIGHT};
use terrain_tests::random::Random;
use terrain_tests::reader::{self, Want};
use terrain_tests::{refusal, UNSET};

/// "exactly the limited LL rows of the map's own j-level transform, in order, then Done".
fn limited_ll(heights: &[u16], s: Shape, stop: usize) -> Vec<u16> {
    let own = Shape { levels: stop, ..s };
    maps::corner(&maps::forward(heights, own), own, stop).concat().into_iter().map(|v| v.clamp(0, 65_535) as u16).collect()
}

fn far_ground(heights: &[u16], s: Shape, stop: usize, random: &mut Random) {
    let plane = maps::forward(heights, s);
    let mut play = Play::to(&plane, s, stop);
    let coarser = |r: order::BandRow| r.level > stop || (stop == s.levels && r.band == order::LL);
    assert!(play.turns.iter().all(|t| matches!(t.step, Step::Draw(_)) || matches!(t.step, Step::Feed(r) if coarser(r))));
    assert_eq!(play.run(random), 0, "{s:?} to {stop}");
    assert_eq!(reader::want(&play.state), Ok(Want::Done));
    assert_eq!(play.drawn, limited_ll(heights, s, stop), "{s:?} to {stop}");
}

#[test]
fn every_small_size_at_every_origin_and_every_stop() {
    let mut random = Random::new(61);
    for (width, height) in (1..=7).flat_map(|w| (1..=7).map(move |h| (w, h))) {
        for heights in maps::maps(width, height) {
            for ((number, levels), (x, y)) in filter::kinds().flat_map(|kind| maps::origins().map(move |origin| (kind, origin))) {
                for stop in 1..=levels {
                    far_ground(&heights, Shape::new(width, height, levels).at(x, y).by(number), stop, &mut random);
                }
            }
        }
    }
}

#[test]
fn larger_and_odd_sizes() {
    let mut random = Random::new(62);
    let mut shapes: Vec<(usize, usize)> = (0..60).map(|_| (1 + random.below(130), 1 + random.below(70))).collect();
    shapes.extend((0..12).map(|_| (1 + random.below(MAX_WIDTH), 1 + random.below(12))));
    shapes.extend([(2_049, 1), (2_049, 9), (2_048, 6), (1_025, 34), (1, 9_999), (2, 4_001)]);
    for (width, height) in shapes {
        for (number, levels) in filter::few_kinds(&mut random) {
            let mut all = maps::maps(width, height);
            let heights = all.swap_remove(random.below(all.len()));
            let (x, y) = maps::origin(&mut random);
            for stop in 1..=levels {
                far_ground(&heights, Shape::new(width, height, levels).at(x, y).by(number), stop, &mut random);
            }
        }
    }
}

/// Up to the last row of the longest map there is.
#[test]
fn the_row_limit() {
    let mut random = Random::new(63);
    for (number, filter) in (0..).zip(&FILTERS) {
        for (width, levels) in [(1, 1), (1, filter.levels), (2, 3), (5, 2), (9, filter.levels)] {
            let s = Shape::new(width, 3 * (filter.rows << levels) - 1, levels).by(number);
            for stop in 1..=levels {
                let plane = maps::forward(&maps::maps(width, s.height)[4], s);
                let mut play = Play::to(&plane, s, stop).near_the_limit();
                assert_eq!(play.run(&mut random), 0);
                let rows = maps::Side { start: 0, length: MAX_HEIGHT }.at(stop).length as u64;
                assert_eq!((play.state[HEIGHT], play.state[DRAWN]), (rows, rows));
            }
        }
    }
}

/// What the rules say of a plane at a stop: 7 or 14 in the call that `order` names, or Done; and Done exactly where an LL of level j in its range has
/// the coefficients of the levels after it.
#[test]
fn damaged_planes() {
    let mut random = Random::new(64);
    let mut seen = [[0; 15]; FILTERS.len()];
    for _ in 0..24_000 {
        let (a, b, (number, levels)) = (1 + random.below(9), 1 + random.below(9), filter::kind(&mut random));
        // one column and one row above all: sets without a fed row of their own
        let (width, height) = [(a, b), (1, b), (1, 4 * b + a), (a, 1)][random.below(4)];
        let (x, y) = maps::origin(&mut random);
        let s = Shape::new(width, height, levels).at(x, y).by(number);
        let plane = damaged(s, &mut random);
        for stop in 1..=levels {
            let mut play = Play::to(&plane, s, stop);
            let number = play.run(&mut random);
            let (w, h) = (across(s).at(stop).length, down(s).at(stop).length);
            let read = |i: usize| i / width < h && i % width < w;
            let in_range = (0..plane.len()).filter(|&i| read(i)).all(|i| i64::from(plane[i]).abs() <= maps::range(s, maps::level_at(s, i)));
            // an LL that is empty asks for nothing; one at j = L is never asked 14
            let has = w == 0 || h == 0 || (in_range && maps::approximation_of(&plane, s, stop));
            assert_eq!(number == 0, has, "{s:?} to {stop}: {number}");
            assert!([0, 7, 14].contains(&number) && (stop < levels || number < 14), "{s:?} to {stop}: {number}");
            seen[s.filter as usize][number as usize] += 1;
        }
    }
    assert!([0, 7, 14].iter().all(|&q: &usize| seen.iter().all(|seen| seen[q] > 500)), "each answer is tried often: {seen:?}");
}

/// 1 × 4 at two levels, stopped at 1: what is rebuilt of level 1 is held to that level's range, and limited on drawing alone.
#[test]
fn limited_on_drawing_only() {
    let s = Shape::new(1, 4, 2);
    let mut random = Random::new(65);
    assert_eq!(Play::to(&[300_000, 0, 0, 0], s, 1).run(&mut random), 14);
    for (ll, lh, drawn) in [(70_000, 0, [65_535, 65_535]), (-70_000, 0, [0, 0]), (70_000, -9_000, [65_535, 65_500]), (70_000, -20_000, [65_535, 60_000])] {
        // the odd row goes by the even one as it was rebuilt, not as it is drawn
        let plane = [ll, lh, 0, 0];
        let mut play = Play::to(&plane, s, 1);
        assert_eq!(play.run(&mut random), 0);
        assert_eq!(play.drawn, drawn, "{ll} {lh}");
        let mut last = Play::to(&plane, s, 2);
        assert_eq!(last.run(&mut random), 0);
        assert_eq!(last.drawn, drawn[..1]);
    }
    assert_eq!(Play::to(&[1_048_560, 0, 0, 0], s, 2).run(&mut random), 0);
    assert_eq!(Play::to(&[1_048_561, 0, 0, 0], s, 2).run(&mut random), 7);
}

/// "LL of level j empty: Done at once", and a feed gives 8, a draw Nothing.
#[test]
fn an_empty_ll_is_done_at_once() {
    for (number, levels) in filter::kinds() {
        for s in [Shape::new(1, 5, levels).at(1, 0), Shape::new(5, 1, levels).at(0, 3), Shape::new(1, 1, levels).at(65_535, 65_535)] {
            let s = s.by(number);
            for stop in 1..=levels {
                let mut store = vec![7; order::store_length(s)];
                let mut state = [9; 16];
                assert_eq!(reader::set_up_at(&mut state, s, stop, &mut store), Ok(()));
                assert_eq!(reader::want(&state), Ok(Want::Done), "{s:?} to {stop}");
                assert_eq!(reader::feed(&mut state, &mut store, &[0]), Err(8));
                assert_eq!(reader::draw(&mut state, &mut store, &mut []), Ok(0));
            }
        }
    }
}

/// 2, 3, 18, 4, 17, 5, in this order; nothing is changed.
#[test]
fn the_questions_of_set_up() {
    let refused = |s: Shape, stop: usize, len: usize, number: u32| {
        let mut store = Guarded::unset(len);
        assert_eq!(reader::set_up_at(&mut [7; 16], s, stop, store.lent()), Err(number), "{s:?} to {stop}, {len}");
        assert!(store.is_unset_from(0));
    };
    let stops = [0, 1, 2, 5, 6, 1 << 32, usize::MAX];
    for stop in stops {
        for number in [0, 1].into_iter().chain(filter::UNKNOWN) {
            for (width, height, levels, no) in [(0, 0, 0, 2), (2_050, 3, 2, 2), (3, 0, 0, 3), (3, MAX_HEIGHT + 1, 2, 3)] {
                refused(Shape::new(width, height, levels).by(number), stop, 0, no);
            }
        }
        for number in filter::UNKNOWN {
            refused(Shape::new(3, 3, 0).by(number), stop, 0, 18);
            refused(Shape::new(3, 3, 2).by(number), stop, 0, 18);
        }
        for (number, filter) in (0..).zip(&FILTERS) {
            for levels in [0, filter.levels + 1, MAX_LEVELS + 1, usize::MAX] {
                refused(Shape::new(3, 3, levels).by(number), stop, 0, 4);
            }
        }
    }
    for (number, levels) in filter::kinds() {
        for (x, y) in maps::origins() {
            let s = Shape::new(9, 7, levels).at(x, y).by(number);
            let needed = order::store_length(s);
            for stop in stops.into_iter().chain([levels, levels + 1]) {
                if stop < 1 || stop > levels {
                    refused(s, stop, 0, 17);
                    refused(s, stop, needed, 17);
                } else {
                    refused(s, stop, needed - 1, 5);
                    let mut store = Guarded::unset(needed + 1);
                    assert_eq!(reader::set_up_at(&mut [7; 16], s, stop, store.lent()), Ok(()));
                    assert!(store.content()[..needed].iter().all(|&v| v == 0) && store.is_unset_from(needed));
                }
            }
        }
    }
}

/// The columns and rows of each level; 2, 3, 18, 4, 17 (level 1 to L), and the outputs stay.
#[test]
fn the_size_of_a_level() {
    let mut random = Random::new(66);
    let size = |s: Shape, level: usize| {
        let (mut columns, mut rows) = (UNSET, UNSET);
        let number = raw::level_size(s, level, &mut columns, &mut rows);
        assert_eq!(level_size(s, level).err(), (number > 0).then_some(refusal::<()>(Call::LevelSize, number).unwrap_err()));
        assert!(number == 0 || (columns, rows) == (UNSET, UNSET), "a refusal sets no number");
        if number == 0 { Ok((columns, rows)) } else { Err(number) }
    };
    let whole = |random: &mut Random, most: usize| [1 + random.below(9), 1 + random.below(most), most][random.below(3)];
    for _ in 0..20_000 {
        let ((x, y), (number, levels)) = (maps::origin(&mut random), filter::kind(&mut random));
        let s = Shape::new(whole(&mut random, MAX_WIDTH), whole(&mut random, MAX_HEIGHT), levels).at(x, y).by(number);
        for level in 1..=levels {
            let expected = (across(s).at(level).length, down(s).at(level).length);
            assert_eq!(size(s, level), Ok(expected), "{s:?} {level}");
            assert_eq!(level_size(s, level), Ok(expected));
        }
        for level in [0, levels + 1, 6, 1 << 32, usize::MAX] {
            assert_eq!(size(s, level), Err(17), "{s:?} {level}");
        }
    }
    for level in [0, 1, usize::MAX] {
        let sizes = [(0, 0, 7, 0, 2), (2_050, 1, 0, 1, 2), (1, 0, 7, 0, 3), (1, MAX_HEIGHT + 1, 0, 1, 3)];
        let kinds = [(1, 1, 2, 0, 18), (1, 1, 0, 6, 4), (1, 1, 1, 5, 4), (1, 1, 0, 0, 4)];
        for (width, height, number, levels, no) in sizes.into_iter().chain(kinds) {
            assert_eq!(size(Shape::new(width, height, levels).by(number), level), Err(no));
        }
    }
}

/// With a store that somebody else has scribbled in, a made row is drawn limited, whatever the store holds.
#[test]
fn a_made_row_is_drawn_limited_whatever_the_store_holds() {
    let mut random = Random::new(67);
    let mut tried = 0;
    for _ in 0..3_000 {
        let ((x, y), (number, levels)) = (maps::origin(&mut random), filter::kind(&mut random));
        let s = Shape::new(1 + random.below(9), 1 + random.below(9), levels).at(x, y).by(number);
        let plane = vec![0; s.width * s.height];
        let mut play = Play::to(&plane, s, 1 + random.below(levels));
        if play.turns.is_empty() {
            continue;
        }
        let until = random.below(play.turns.len());
        while play.at < until {
            match play.step() {
                Some(Step::Feed(r)) => play.feed(&play.row(r)),
                _ => play.draw(play.width()).map(|_| ()),
            }
            .unwrap();
        }
        if matches!(play.step(), Some(Step::Draw(_))) && play.turns[until].made.is_empty() {
            let word = [random.word(), random.below(70_000) as i32][random.below(2)];
            play.store.lent().iter_mut().for_each(|v| *v = word);
            let mut out = Guarded::<u16>::unset(play.width() + 1);
            assert_eq!(reader::draw(&mut play.state, play.store.lent(), out.lent()), Ok(play.width()));
            assert!(out.content()[..play.width()].iter().all(|&h| i32::from(h) == word.clamp(0, 65_535)), "{s:?}");
            assert!(out.is_unset_from(play.width()) && play.store.content().iter().all(|&v| v == word));
            tried += 1;
        }
    }
    assert!(tried > 300, "{tried}");
}

/// Wants never depend on what the store holds, and every call returns: it goes on, or ends in 14, which zeroes the whole map's store.
#[test]
fn a_store_scribbled_in_between_two_calls() {
    let mut random = Random::new(68);
    for _ in 0..4_000 {
        let ((x, y), (number, levels)) = (maps::origin(&mut random), filter::kind(&mut random));
        let s = Shape::new(1 + random.below(9), 1 + random.below(12), levels).at(x, y).by(number);
        let plane = vec![0; s.width * s.height];
        let mut play = Play::to(&plane, s, 1 + random.below(levels));
        let needed = order::store_length(s);
        while let Some(step) = play.step() {
            play.want();
            if random.below(3) == 0 {
                let i = random.below(needed);
                play.store.lent()[i] = [random.word(), random.below(65_536) as i32][random.below(2)];
            }
            let mut out = Guarded::<u16>::unset(play.width());
            let width = play.width();
            let answer = match step {
                Step::Feed(r) => reader::feed(&mut play.state, play.store.lent(), &vec![0; r.length]),
                Step::Draw(_) => reader::draw(&mut play.state, play.store.lent(), out.lent()).map(|n| assert_eq!(n, width)),
            };
            assert!(play.store.is_unset_from(needed));
            if let Err(number) = answer {
                assert!(number == 14 && play.stop < levels && out.is_unset_from(0));
                assert!(play.store.content()[..needed].iter().all(|&v| v == 0));
                play.ended = true;
                break;
            }
            play.at += 1;
        }
        play.want();
    }
}
