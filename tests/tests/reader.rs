//! The reader against the independent transform and the independent steps, and round trips through writer and reader, by each filter.
use std::collections::HashMap;
use terrain::raw::{self, State};
use terrain::{map_backward, Reader, Shape, Writer};
use terrain_tests::areas::Guarded;
use terrain_tests::filter::{self, FILTERS, NINE_SEVEN};
use terrain_tests::maps::{self, MAX_HEIGHT, MAX_LEVELS, MAX_WIDTH};
use terrain_tests::order::{self, Step};
use terrain_tests::play::{damaged, Play, ADMISSION, DRAWN, ENDED, HEIGHT, SURPLUS};
use terrain_tests::random::Random;
use terrain_tests::reader::{self, Want};
use terrain_tests::writer;

#[test]
fn every_small_size_at_every_origin() {
    let mut random = Random::new(21);
    for width in 1..=9 {
        for height in 1..=9 {
            for (number, levels) in filter::kinds() {
                for heights in maps::maps(width, height) {
                    for (x, y) in maps::origins() {
                        let s = Shape::new(width, height, levels).at(x, y).by(number);
                        let plane = maps::forward(&heights, s);
                        assert_eq!(Play::new(&plane, s).run(&mut random), 0);
                    }
                }
            }
        }
    }
}

#[test]
fn single_columns_and_single_rows() {
    let mut random = Random::new(22);
    for long in (1..=70).chain([127, 128, 129, 333, 1_025]) {
        for (number, levels) in filter::kinds() {
            for (width, height) in [(1, long), (long, 1), (2, long), (long, 2)] {
                for (x, y) in [(0, 0), (1, 0), (0, 1), (1, 1), (3, 3)] {
                    let s = Shape::new(width, height, levels).at(x, y).by(number);
                    let mut all = maps::maps(width, height);
                    let plane = maps::forward(&all.swap_remove(random.below(all.len())), s);
                    assert_eq!(Play::new(&plane, s).run(&mut random), 0);
                }
            }
        }
    }
}

#[test]
fn larger_and_odd_sizes() {
    let mut random = Random::new(23);
    let mut shapes: Vec<(usize, usize)> = (0..80).map(|_| (1 + random.below(130), 1 + random.below(70))).collect();
    shapes.extend((0..20).map(|_| (1 + random.below(MAX_WIDTH), 1 + random.below(12))));
    shapes.extend([(2_049, 1), (2_049, 2), (2_049, 9), (2_048, 6), (2_047, 5), (1_025, 34), (1, 65_535), (2, 40_001)]);
    for (width, height) in shapes {
        for (number, levels) in filter::few_kinds(&mut random) {
            let mut all = maps::maps(width, height);
            let (x, y) = maps::origin(&mut random);
            let s = Shape::new(width, height, levels).at(x, y).by(number);
            let plane = maps::forward(&all.swap_remove(random.below(all.len())), s);
            assert_eq!(Play::new(&plane, s).run(&mut random), 0);
        }
    }
}

#[test]
fn the_row_limit() {
    let mut random = Random::new(27);
    for (number, filter) in (0..).zip(&FILTERS) {
        for (width, levels) in [(1, 1), (1, filter.levels), (2, 3), (5, 2), (9, filter.levels)] {
            let shape = Shape::new(width, 3 * (filter.rows << levels) - 1, levels).by(number);
            for heights in maps::maps(width, shape.height) {
                let plane = maps::forward(&heights, shape);
                let mut play = Play::new(&plane, shape).near_the_limit();
                assert_eq!(play.run(&mut random), 0);
                assert_eq!(play.state[HEIGHT..=DRAWN], [MAX_HEIGHT as u64, levels as u64, MAX_HEIGHT as u64]);
            }
        }
    }
}

#[test]
fn past_the_row_limit() {
    let shape = Shape::new(3, 47, 2);
    let plane = maps::forward(&[5; 3 * 47], shape);
    let play = Play::new(&plane, shape).near_the_limit();
    let most = MAX_HEIGHT as u64;
    for (height, drawn, fits) in [(most - 1, most - 1, true), (most, most - 1, true), (most, most, true), (most + 1, 0, false), (most, most + 1, false)] {
        let (mut state, mut store) = (play.state, play.store.content().to_vec());
        (state[HEIGHT], state[DRAWN]) = (height, drawn);
        assert_eq!(reader::want(&state).is_ok(), fits, "{drawn} of {height} rows");
        if !fits {
            assert_eq!(reader::want(&state), Err(1));
            assert_eq!(reader::feed(&mut state, &mut store, &[0, 0]), Err(1));
            assert_eq!(reader::draw(&mut state, &mut store, &mut [0; 3]), Err(1));
            assert_eq!(store, play.store.content());
        }
    }
}

/// "7 or 14 before Done exactly where the whole map backward refuses": which of the two, and in which call, is the model's.
fn same_verdict(plane: &[i32], s: Shape, random: &mut Random) -> u32 {
    let number = Play::new(plane, s).run(random);
    let n = s.width * s.height;
    let whole = map_backward(plane, s, &mut vec![0; n], &mut vec![0; n]);
    assert_eq!(number == 0, whole.is_ok(), "{s:?}: the reader gives {number}, the whole map {whole:?}");
    assert_eq!(number == 0, maps::map_of(plane, s).is_some(), "{s:?}");
    assert!([0, 7, 14].contains(&number), "{s:?}: {number}");
    number
}

#[test]
fn damaged_planes() {
    let mut random = Random::new(24);
    let mut seen = [[0; 15]; FILTERS.len()];
    for _ in 0..24_000 {
        let (a, b, (number, levels)) = (1 + random.below(9), 1 + random.below(9), filter::kind(&mut random));
        // one column and one row above all: sets without a fed row of their own
        let (width, height) = [(a, b), (1, b), (1, 4 * b + a), (a, 1)][random.below(4)];
        let (x, y) = maps::origin(&mut random);
        let s = Shape::new(width, height, levels).at(x, y).by(number);
        let plane = damaged(s, &mut random);
        seen[number as usize][same_verdict(&plane, s, &mut random) as usize] += 1;
    }
    assert!([0, 7, 14].iter().all(|&q: &usize| seen.iter().all(|seen| seen[q] > 500)), "each answer is tried often: {seen:?}");
}

#[test]
fn planes_of_noise() {
    let mut random = Random::new(25);
    for _ in 0..6_000 {
        let ((x, y), (number, levels)) = (maps::origin(&mut random), filter::kind(&mut random));
        let s = Shape::new(1 + random.below(4), 1 + random.below(9), levels).at(x, y).by(number);
        let plane: Vec<i32> = (0..s.width * s.height)
            .map(|i| {
                let reach = maps::range(s, maps::level_at(s, i)) as i32;
                [random.below(65_536) as i32, random.below(9) as i32 - 4, reach, -reach][random.below(4)]
            })
            .collect();
        same_verdict(&plane, s, &mut random);
    }
}

#[test]
fn the_samples_of_the_scope() {
    let column = Shape::new(1, 4, 2);
    let plane = [4, 1, 3, 5];
    let mut play = Play::new(&plane, column);
    let mut wants = Vec::new();
    while let Want::Row(r) = reader::want(&play.state).unwrap() {
        wants.push((r.level, r.band, r.row));
        play.feed(&play.row(r)).unwrap();
        while let Some(Step::Draw(_)) = play.step() {
            play.draw(1).unwrap();
        }
    }
    assert_eq!(wants, [(2, order::LL, 0), (2, order::LH, 0), (1, order::LH, 0), (1, order::LH, 1)]);
    assert_eq!(play.grids[0].rows, [[1], [4], [2], [7]]);
    let one = Shape::new(1, 1, 5);
    assert_eq!(Play::new(&[65_535], one).run(&mut Random::new(1)), 0);
    assert_eq!(Play::new(&[65_536], one).run(&mut Random::new(1)), 14);
}

/// By the 9/7 row 0 is made by set 0, and rows 1 and 2 by set 2: with the set that brings the last value that row 1 needs. The last set makes rows
/// 3 to 6.
#[test]
fn fourteen_in_the_feed_of_the_set_that_makes_the_row() {
    let s = Shape::new(1, 7, 1).by(NINE_SEVEN);
    let until_14 = |place: usize, value: i32| {
        let mut plane = [0; 7];
        plane[place] = value;
        let mut play = Play::new(&plane, s);
        assert_eq!(play.run(&mut Random::new(5)), 14);
        match play.step() {
            Some(Step::Feed(r)) => (r.band, r.row, play.state[DRAWN]),
            step => panic!("{step:?}"),
        }
    };
    // LL 0 to 3, then LH 0 to 2
    assert_eq!(until_14(0, 70_000), (order::LH, 0, 0));
    assert_eq!(until_14(1, 70_000), (order::LH, 2, 1), "row 0 is drawn");
    assert_eq!(until_14(3, 70_000), (order::LL, 3, 3), "rows 0 to 2 are drawn: the last set has no high row");
    assert_eq!(until_14(6, 70_000), (order::LL, 3, 3));
}

/// One misfit among the rows that the last set makes, up to five, and none of them is drawn.
#[test]
fn no_row_of_the_last_set_is_drawn_where_one_does_not_fit() {
    for height in 1..=24 {
        for y in 0..4 {
            let s = Shape::new(1, height, 1).at(0, y).by(NINE_SEVEN);
            let last = order::steps(s).into_iter().rev().find(|t| !t.made.is_empty()).expect("a set").made.pop().expect("rows");
            for misfit in last.first..last.end {
                // a column that only here is no height
                let heights: Vec<i32> = (0..height).map(|r| if r == misfit { -1 } else { 9 }).collect();
                let values = terrain_tests::nine_seven::forward(&heights, y.into());
                let plane = terrain_tests::grid::in_halves(&values, y.into());
                let mut play = Play::new(&plane, s);
                assert_eq!(play.run(&mut Random::new(6)), 14);
                assert_eq!(play.state[DRAWN], last.first as u64, "{s:?}");
            }
        }
    }
}

/// Document 02, Q-3: an odd value that is due to be halved gives 14 when its set is worked out, also where that set makes no row.
#[test]
fn an_odd_lone_value_gives_14_in_the_feed_of_its_set() {
    for (number, row, value) in [(0, 0, 3), (0, 1, -1), (1, 0, 3), (1, 1, -1)] {
        let s = Shape::new(1, 3, 1).at(1, 1).by(number);
        let plane = maps::forward(&[5, 6, 7], s);
        let mut damaged = plane.clone();
        let r = order::steps(s)
            .iter()
            .find_map(|t| match t.step {
                Step::Feed(r) if r.band == order::HH && r.row == row => Some(r),
                _ => None,
            })
            .expect("HH has two rows");
        damaged[order::place(s, r)][0] = value;
        let mut play = Play::new(&damaged, s);
        assert_eq!(play.run(&mut Random::new(3)), 14);
        assert_eq!(play.step(), Some(Step::Feed(r)), "in its own feed");
    }
}

/// Through a writer and a reader, with nothing between them but the rows: the heights again.
fn round_trip(heights: &[u16], s: Shape) {
    let mut store = Guarded::unset(order::writer_store_length(s));
    let mut writer = Writer::new(s, store.lent()).unwrap();
    let mut rows: HashMap<terrain::BandRow, Vec<i32>> = HashMap::new();
    let mut out = vec![0; s.width];
    let mut rest = heights;
    loop {
        if let Some((r, values)) = writer.draw(&mut out).unwrap() {
            assert!(rows.insert(r, values.to_vec()).is_none(), "{s:?}: {r:?} twice");
        } else if !rest.is_empty() {
            rest = &rest[writer.offer(rest).unwrap()..];
        } else if writer.finish().is_err_and(|q| q.number == 9) {
            break;
        }
    }
    let mut reader = Reader::new(s, store.lent()).unwrap();
    let mut drawn: Vec<u16> = Vec::new();
    let mut line = vec![0; s.width];
    loop {
        match reader.want().unwrap() {
            terrain::Want::Row(r) => reader.feed(&rows.remove(&r).expect("a row that the writer made, once")).unwrap(),
            terrain::Want::Draw => drawn.extend_from_slice(reader.draw(&mut line).unwrap().expect("a row to draw")),
            terrain::Want::Done => break,
            terrain::Want::Ended => panic!("{s:?}: a map's rows are refused"),
        }
    }
    store.content();
    assert!(rows.is_empty(), "{s:?}: every row is wanted");
    assert_eq!(drawn, heights, "{s:?}");
}

#[test]
fn round_trips() {
    for width in 1..=12 {
        for height in 1..=12 {
            for (number, levels) in filter::kinds() {
                for heights in maps::maps(width, height) {
                    for (x, y) in [(0, 0), (1, 0), (0, 1), (1, 1), (2, 3), (3, 2)] {
                        round_trip(&heights, Shape::new(width, height, levels).at(x, y).by(number));
                    }
                }
            }
        }
    }
    for (width, height) in [(2_049, 65), (2_048, 33), (1_000, 100), (1, 65_535), (3, 9_999), (2_049, 1)] {
        for (number, levels) in filter::kinds().filter(|&(number, levels)| [1, 3, FILTERS[number as usize].levels].contains(&levels)) {
            for heights in maps::maps(width, height) {
                round_trip(&heights, Shape::new(width, height, levels).by(number));
            }
        }
    }
}

#[test]
fn the_questions_of_set_up() {
    let refused = |s: Shape, len: usize, number: u32| {
        let mut store = Guarded::unset(len);
        assert_eq!(reader::set_up(&mut [7; 16], s, store.lent()), Err(number), "{s:?} {len}");
        assert!(store.is_unset_from(0));
    };
    for number in [0, 1].into_iter().chain(filter::UNKNOWN) {
        let ok = Shape::new(3, 3, 2).by(number);
        for width in [0, MAX_WIDTH + 1, 1 << 32, usize::MAX] {
            for height in [0, 3, usize::MAX] {
                for levels in [0, 2, 6] {
                    refused(Shape { width, height, levels, ..ok }, 0, 2);
                }
            }
        }
        for height in [0, MAX_HEIGHT + 1, usize::MAX] {
            for levels in [0, 2, usize::MAX] {
                refused(Shape { height, levels, ..ok }, 0, 3);
            }
        }
    }
    for number in filter::UNKNOWN {
        for levels in [0, 1, 4, 5, 6, usize::MAX] {
            refused(Shape::new(3, 3, levels).by(number), 0, 18);
        }
    }
    for (number, filter) in (0..).zip(&FILTERS) {
        for levels in [0, filter.levels + 1, MAX_LEVELS + 1, usize::MAX] {
            refused(Shape::new(3, 3, levels).by(number), 0, 4);
        }
    }
    for width in [1, 2, 3, 9, MAX_WIDTH] {
        for height in [1, 2, MAX_HEIGHT] {
            for (number, levels) in filter::kinds() {
                for (x, y) in maps::origins() {
                    let s = Shape::new(width, height, levels).at(x, y).by(number);
                    let needed = order::store_length(s);
                    refused(s, needed - 1, 5);
                    let mut store = Guarded::unset(needed);
                    assert_eq!(reader::set_up(&mut [7; 16], s, store.lent()), Ok(()));
                    assert!(store.content().iter().all(|&v| v == 0));
                }
            }
        }
    }
}

#[test]
fn a_made_row_is_drawn_modulo_65_536_whatever_the_store_holds() {
    let mut random = Random::new(26);
    for _ in 0..1_000 {
        let ((x, y), (number, levels)) = (maps::origin(&mut random), filter::kind(&mut random));
        let s = Shape::new(1 + random.below(9), 1 + random.below(9), levels).at(x, y).by(number);
        let plane = vec![0; s.width * s.height];
        let mut play = Play::new(&plane, s);
        let until = random.below(play.turns.len());
        while play.at < until {
            match play.step() {
                Some(Step::Feed(r)) => play.feed(&play.row(r)),
                _ => play.draw(s.width).map(|_| ()),
            }
            .unwrap();
        }
        if matches!(play.step(), Some(Step::Draw(_))) && play.turns[until].made.is_empty() {
            let word = random.word();
            play.store.lent().iter_mut().for_each(|v| *v = word);
            let mut out = Guarded::<u16>::unset(s.width + 1);
            assert_eq!(reader::draw(&mut play.state, play.store.lent(), out.lent()), Ok(s.width));
            assert!(out.content()[..s.width].iter().all(|&h| h == word as u16), "{s:?}");
            assert!(out.is_unset_from(s.width) && play.store.content().iter().all(|&v| v == word));
        }
    }
}

/// The most numbers that a reader without levels can have beside it.
const MAX_SPARE: u64 = 131_136;

/// The counts of a reader, as docs/STATE.md lists them: whether question 1 passes. Those of a reader with a stop are of the low-low part that it reads,
/// which may have no level left to work out.
fn counts_fit(s: &State) -> bool {
    let [kind, width, height, levels, drawn, level, band, ended, x, y, back, number, stop, spare, admission, rest] = *s;
    if kind != 2 || number >= FILTERS.len() as u64 {
        return false;
    }
    let f = &FILTERS[number as usize];
    let (most, stretch) = (f.levels as u64, (f.rows * MAX_WIDTH) as u64);
    let sizes = if levels > 0 {
        (1..=2_049).contains(&width) && (1..=MAX_HEIGHT as u64).contains(&height) && level <= levels && back <= 2 * f.ahead as u64 - 1
    } else {
        width <= 2_049 && height <= MAX_HEIGHT as u64 && level == 0 && back == 0 && stop > 0 && width <= spare
    };
    sizes
        && levels <= most
        && stop <= most - levels
        && spare <= if levels > 0 { stop * stretch } else { MAX_SPARE }
        && drawn <= height
        && band <= 4
        && ended <= 1
        && x <= 65_535
        && y <= 65_535
        // a tolerant reader reads a whole map from the origin by the 5/3, and is never ended
        && (admission == 0 || (admission == 1 && [ended, x, y, number, stop] == [0; 5]))
        && rest == 0
}

/// The numbers of the line store that the counts of a reader speak of: its own levels' and, with a stop, those of the levels left out.
fn needed_by(s: &State) -> usize {
    let own = if s[3] > 0 { order::store_length(Shape::new(s[1] as usize, 1, s[3] as usize).at(s[8] as u16, 0).by(s[11] as u32)) } else { 0 };
    own + s[13] as usize
}

/// All calls on a state and a store, whatever they hold: each returns, answers 1 or 5 exactly where it must, and stays in its areas.
fn bear(state: &State, store: &[i32], random: &mut Random) {
    let fit = counts_fit(state);
    let needed = if fit { needed_by(state) } else { 0 };
    if fit && state[1] == 0 {
        // rows without a number, which no list of calls reaches: a draw gives them, 0 heights each, and goes on
        assert_eq!(raw::reader_want(state, &mut [0; 5]), 0);
        return;
    }
    let first = if !fit {
        Some(1)
    } else if store.len() < needed {
        Some(5)
    } else {
        None
    };
    let (want, tolerant) = (reader::want(state), state[ADMISSION] > 0);
    assert_eq!(want.is_err(), !fit, "{state:?}");
    assert!(fit || want == Err(1));
    assert!(!tolerant || want != Ok(Want::Ended));
    let mut len = random.below(9);
    if let Ok(Want::Row(r)) = want {
        let (stop, levels) = (state[12] as usize, state[3] as usize);
        assert!(r.level >= 1 && r.level > stop - usize::from(levels == 0) && r.level <= stop + levels && r.band <= 3 && r.length <= state[1] as usize);
        len = r.length + usize::from(random.below(8) == 0);
    }
    let run: Vec<i32> = (0..len).map(|_| [random.below(65_536) as i32, 0, random.word()][random.below(3)]).collect();
    let room = [0, 1, 8, 40, 2_049][random.below(5)];
    for call in 0..2 {
        let mut kept = *state;
        let mut lent = Guarded::new(store);
        let mut out = Guarded::<u16>::unset(room);
        let mut length = 0;
        let answer = match call {
            0 => reader::feed(&mut kept, lent.lent(), &run),
            _ => reader::draw(&mut kept, lent.lent(), out.lent()).map(|n| length = n),
        };
        assert!(length == 0 || length == state[1] as usize);
        assert!(out.is_unset_from(length));
        assert_eq!(lent.content()[needed.min(store.len())..], store[needed.min(store.len())..], "the surplus is touched");
        match answer {
            Ok(()) => assert_eq!(first, None, "{state:?}"),
            Err(14) => {
                assert!(first.is_none() && kept[ENDED] == 1 && state[ENDED] == 0 && !tolerant);
                assert!(lent.content()[..needed].iter().all(|&v| v == 0), "14 zeroes the needed part");
            }
            Err(number) => {
                assert_eq!(lent.content(), store, "a refusal changes nothing");
                let others: &[u32] = [&[7, 8, 9, 13][..], &[9, 12]][call];
                assert!(first == Some(number) || (first.is_none() && others.contains(&number) && !(tolerant && number == 9)), "{number} of {state:?}");
            }
        }
    }
}

/// A state with its counts in their ranges, or nearly: without a stop, with one, with one that leaves no level, and a tolerant reader's.
fn any_state(random: &mut Random) -> State {
    let up_to = |random: &mut Random, n: u64| random.below(n as usize + 1) as u64;
    let width = [1, 1, 2, 3, 5, 8, 17, 2_049][random.below(8)] as u64;
    let height = [1 + random.below(12), 1 + random.below(MAX_HEIGHT), MAX_HEIGHT][random.below(3)] as u64;
    let (number, most) = filter::kind(random);
    let f = &FILTERS[number as usize];
    let stop = [0, random.below(most + 1)][random.below(2)];
    // a stop takes levels away; all of them, now and then
    let levels = if stop == 0 || random.below(8) == 0 { most } else { most - stop };
    let spare = if stop == 0 { 0 } else { up_to(random, (stop * f.rows) as u64 * 3) + width };
    let (level, back) = if levels == 0 { (0, 0) } else { (up_to(random, levels as u64), up_to(random, 2 * f.ahead as u64 - 1)) };
    let (x, y) = maps::origin(random);
    let mut state = [0; 16];
    state[..14].copy_from_slice(&[
        2,
        width,
        height,
        levels as u64,
        up_to(random, height),
        level,
        up_to(random, 4),
        u64::from(random.below(8) == 0),
        x.into(),
        y.into(),
        back,
        // the other filter's, now and then
        u64::from(if random.below(12) == 0 { 1 - number } else { number }),
        stop as u64,
        spare,
    ]);
    if number == 0 && stop == 0 && random.below(3) == 0 {
        state[ADMISSION] = 1;
        (state[ENDED], state[8], state[9]) = (0, 0, 0);
    }
    if random.below(3) == 0 {
        let i = random.below(16);
        state[i] = [0, 1, 2, 6, 2_050, 65_536, 1 << 32, u64::MAX][random.below(8)];
    }
    state
}

#[test]
fn states_nobody_reached_and_scribbled_stores() {
    let mut random = Random::new(27);
    let mut passed = [0; 4];
    for _ in 0..90_000 {
        let state = any_state(&mut random);
        let fit = counts_fit(&state);
        passed[if state[ADMISSION] == 1 { 3 } else if state[3] == 0 { 2 } else { usize::from(state[12] > 0) }] += usize::from(fit);
        let needed = if fit { needed_by(&state) } else { 40 };
        let len = needed + [0, 3, 11][random.below(3)] - usize::from(random.below(5) == 0);
        let store: Vec<i32> = match random.below(3) {
            0 => vec![[i32::MIN, i32::MAX, -1][random.below(3)]; len],
            1 => (0..len).map(|_| random.below(65_536) as i32).collect(),
            _ => (0..len).map(|_| random.word()).collect(),
        };
        bear(&state, &store, &mut random);
    }
    assert!(passed.iter().zip([25_000, 9_000, 2_000, 4_000]).all(|(&n, least)| n > least), "{passed:?} states pass question 1");
}

#[test]
fn a_store_scribbled_in_between_two_calls() {
    let mut random = Random::new(28);
    for _ in 0..6_000 {
        let ((x, y), (number, levels)) = (maps::origin(&mut random), filter::kind(&mut random));
        let s = Shape::new(1 + random.below(9), 1 + random.below(12), levels).at(x, y).by(number);
        let plane = vec![32_768; s.width * s.height];
        let mut play = Play::new(&plane, s);
        // wants never depend on what the store holds, and every call returns: it goes on, or ends in 14
        while let Some(turn) = play.turns.get(play.at) {
            play.want();
            if random.below(3) == 0 {
                let i = random.below(play.store.content().len() - SURPLUS);
                play.store.lent()[i] = [random.word(), random.below(65_536) as i32][random.below(2)];
            }
            let mut out = Guarded::<u16>::unset(s.width);
            let answer = match turn.step {
                Step::Feed(r) => reader::feed(&mut play.state, play.store.lent(), &vec![0; r.length]),
                Step::Draw(_) => reader::draw(&mut play.state, play.store.lent(), out.lent()).map(|n| assert_eq!(n, s.width)),
            };
            assert!(play.store.is_unset_from(play.store.content().len() - SURPLUS));
            if let Err(number) = answer {
                assert!(number == 14 && out.is_unset_from(0));
                play.ended = true;
                break;
            }
            play.at += 1;
        }
        play.want();
    }
}

/// A number that no filter has, levels that the 9/7 has not, and a count of sets that only the 9/7 has.
#[test]
fn states_with_a_wrong_filter_give_1() {
    let mut store = vec![0; order::store_length(Shape::new(3, 1, 4).by(NINE_SEVEN))];
    for (number, levels) in filter::kinds() {
        let mut state = [0; 16];
        assert_eq!(reader::set_up(&mut state, Shape::new(3, 9, levels).by(number), &mut store), Ok(()));
        assert_eq!(state[11], u64::from(number), "the set-up keeps the filter's number");
        for (place, value, fits) in [
            (11, 2, false),
            (11, 1 << 32, false),
            (11, u64::MAX, false),
            (11, 1, levels < 5),
            (11, 0, state[10] < 2),
            (3, 5, number == 0),
            (10, 2, number == 1),
            (10, 4, false),
        ] {
            let mut other = state;
            other[place] = value;
            assert_eq!(counts_fit(&other), fits);
            assert_eq!(reader::want(&other).err(), (!fits).then_some(1), "{other:?}");
            if !fits {
                assert_eq!(reader::feed(&mut other, &mut store, &[0]), Err(1));
                assert_eq!(reader::draw(&mut other, &mut store, &mut [0; 3]), Err(1));
            }
        }
    }
}

#[test]
fn a_writer_s_state_is_no_reader_s() {
    let mut store = vec![0; order::writer_store_length(Shape::new(3, 1, 2))];
    let (mut of_writer, mut of_reader) = ([0; 16], [0; 16]);
    assert_eq!(writer::set_up(&mut of_writer, Shape::new(3, 3, 2), &mut store), Ok(()));
    assert_eq!(reader::set_up(&mut of_reader, Shape::new(3, 3, 2), &mut store), Ok(()));
    assert_eq!(reader::want(&of_writer), Err(1));
    assert_eq!(reader::feed(&mut of_writer, &mut store, &[0, 0]), Err(1));
    assert_eq!(reader::draw(&mut of_writer, &mut store, &mut [0; 3]), Err(1));
    assert_eq!(writer::offer(&mut of_reader, &mut store, &[0]), Err(1));
    assert_eq!(writer::draw(&mut of_reader, &mut store, &mut [0; 3]), Err(1));
    assert_eq!(writer::finish(&mut of_reader, &mut store), Err(1));
}

/// What is lent to a run of many rows, what it leaves there, and what it answers: the counts, and whether 14 came.
#[derive(Clone, Debug, PartialEq)]
struct Lent {
    state: State,
    store: Vec<i32>,
    out: Vec<u16>,
    answer: Result<([usize; 2], bool), u32>,
}

impl Lent {
    /// By one call.
    fn run(mut self, numbers: &[i32]) -> Lent {
        let mut counts = [7; 2];
        let number = raw::reader_run(&mut self.state, &mut self.store, numbers, &mut self.out, &mut counts);
        let told = [0, 14].contains(&number);
        assert!(told || counts == [7; 2], "a refusal changes nothing");
        self.answer = if told { Ok((counts.map(|n| n as usize), number == 14)) } else { Err(number) };
        self
    }

    /// By single calls: a draw while one is wanted, else a feed of the row wanted, or of what is left of the numbers.
    fn row_by_row(mut self, numbers: &[i32]) -> Lent {
        let ([mut used, mut rows], mut first, width) = ([0; 2], true, self.state[1] as usize);
        let answer = loop {
            let (kept, (want, left)) = (self.state[ENDED] == 1, (reader::want(&self.state), numbers.len() - used));
            let (answer, size) = match want {
                Ok(Want::Draw) => {
                    let answer = reader::draw(&mut self.state, &mut self.store, &mut self.out[rows * width..]);
                    rows += usize::from(answer.is_ok());
                    (answer.map(|_| ()), 1)
                }
                _ => {
                    let size = if let Ok(Want::Row(r)) = want { r.length.min(left) } else { left };
                    let answer = reader::feed(&mut self.state, &mut self.store, &numbers[used..used + size]);
                    used += if answer.is_ok() { size } else { 0 };
                    (answer, size)
                }
            };
            match answer {
                Ok(()) => assert!(size > 0),
                Err(14) if !kept => break Ok(true),
                Err(number) => break if first && (size > 0 || [1, 5, 9].contains(&number)) { Err(number) } else { Ok(false) },
            }
            first = false;
        };
        Lent { answer: answer.map(|ended| ([used, rows], ended)), ..self }
    }
}

/// A reader of one of the kinds: of a whole map, to a stop, tolerant.
fn fresh(kind: usize, s: Shape, random: &mut Random) -> (State, Vec<i32>) {
    let (mut state, mut store) = ([0; 16], vec![-3; order::store_length(s) + SURPLUS]);
    let made = match kind {
        0 => reader::set_up(&mut state, s, &mut store),
        1 => reader::set_up_at(&mut state, s, 1 + random.below(s.levels), &mut store),
        _ => reader::tolerant_set_up(&mut state, s, &mut store),
    };
    assert_eq!(made, Ok(()));
    (state, store)
}

/// All the rows that a reader wants, of a plane, one after the other.
fn in_order(plane: &[i32], s: Shape, (mut state, mut store): (State, Vec<i32>)) -> Vec<i32> {
    let (mut numbers, mut out) = (Vec::new(), vec![0; s.width]);
    loop {
        match reader::want(&state).expect("a state that was reached") {
            Want::Row(r) => {
                let row = &plane[order::place(s, r)];
                numbers.extend_from_slice(row);
                reader::feed(&mut state, &mut store, row).expect("a row of the map");
            }
            Want::Draw => assert!(reader::draw(&mut state, &mut store, &mut out).is_ok()),
            _ => return numbers,
        }
    }
}

/// A call for many rows does what single calls do, wherever the numbers and the output are cut, and mixed with these, of maps and of damaged rows: answer,
/// counts, state, store and output with their surplus.
#[test]
fn many_rows_at_once() {
    let mut random = Random::new(42);
    let mut seen = [0; 5];
    for turn in 0..1_500 {
        let kind = turn % 3;
        let (number, most) = if kind == 2 { (0, 5) } else { filter::kind(&mut random) };
        let (x, y) = if kind == 2 { (0, 0) } else { maps::origin(&mut random) };
        let (width, height) = (1 + random.below(24), 1 + random.below(24));
        let s = Shape::new(width, height, 1 + random.below(most)).at(x, y).by(number);
        let heights: Vec<u16> = (0..width * height).map(|_| random.below(65_536) as u16).collect();
        let begun = fresh(kind, s, &mut random);
        let mut numbers = in_order(&maps::forward(&heights, s), s, begun.clone());
        // damage: 7 of a number that no level has, 14 of one that some have
        if turn % 4 == 0 && !numbers.is_empty() {
            let i = random.below(numbers.len());
            numbers[i] = [i32::MAX, i32::MIN, 70_000, -70_000, 65_535 * 4][random.below(5)];
        }
        let ((mut state, mut store), mut used) = (begun, 0);
        for _ in 0..60 {
            let cut = used + random.below(numbers.len() - used + 1).min(random.below(5 * width + 1));
            let out = vec![9; random.below(3 * width + 2)];
            let lent = Lent { state, store, out, answer: Err(0) };
            let run = lent.clone().run(&numbers[used..cut]);
            assert_eq!(run, lent.row_by_row(&numbers[used..cut]), "{s:?} {state:?}");
            (state, store) = (run.state, run.store);
            match run.answer {
                Ok(([more, _], ended)) => (used, seen[usize::from(ended)]) = (used + more, seen[usize::from(ended)] + 1),
                Err(q) => seen[match q { 7 => 2, 12 => 3, _ => 4 }] += 1,
            }
            // and single calls between
            if random.below(3) == 0 {
                let _ = reader::draw(&mut state, &mut store, &mut vec![0; width]);
            }
            if let (Ok(Want::Row(r)), 0) = (reader::want(&state), random.below(3)) {
                if used + r.length <= numbers.len() && reader::feed(&mut state, &mut store, &numbers[used..used + r.length]).is_ok() {
                    used += r.length;
                }
            }
        }
    }
    assert!(seen.iter().all(|&n| n > 40), "{seen:?}: runs that passed, by 14, 7, 12 and others");
}

/// And on states that no list of calls reaches, with anything in the store.
#[test]
fn many_rows_from_states_nobody_reached() {
    let mut random = Random::new(43);
    let mut passed = 0;
    for _ in 0..60_000 {
        let state = any_state(&mut random);
        let fit = counts_fit(&state);
        let needed = if fit { needed_by(&state) } else { 40 };
        let len = needed + [0, 3, 11][random.below(3)] - usize::from(random.below(9) == 0);
        let bits = [65_536, 9][random.below(2)];
        let store: Vec<i32> = (0..len).map(|_| random.below(bits) as i32).collect();
        let numbers: Vec<i32> = (0..random.below(60)).map(|_| random.below(bits) as i32 - 4).collect();
        let out = vec![5; random.below(3) * state[1].min(2_049) as usize + random.below(4)];
        let lent = Lent { state, store, out, answer: Err(0) };
        let run = lent.clone().run(&numbers);
        if fit && state[1] == 0 {
            // rows without a number, which no list of calls reaches: none is fed
            assert!(matches!(run.answer, Ok(([0, 0 | 1], false)) | Err(5 | 8 | 9)));
            continue;
        }
        assert_eq!(run, lent.row_by_row(&numbers), "{state:?}");
        passed += usize::from(matches!(run.answer, Ok(([used, _], _)) if used > 0));
    }
    assert!(passed > 4_000, "{passed} runs used numbers");
}
