//! The whole-map calls and the view against the reference, by each filter.
use terrain::Call::{MapBackward, MapForward, View};
use terrain::{map_backward, map_forward, raw, view, Band, Question, Shape};
use terrain_tests::areas::Guarded;
use terrain_tests::filter::{self, FILTERS, NINE_SEVEN};
use terrain_tests::maps::{self, across, down, forward, in_range, level_at, map_of, range, MAX_HEIGHT, MAX_LEVELS, MAX_WIDTH};
use terrain_tests::random::Random;
use terrain_tests::{refusal, UNSET};

/// There and back: the plane is the reference's, the map comes back, the work area is zero, every surplus and guard untouched.
fn there_and_back(heights: &[u16], s: Shape) {
    let n = s.width * s.height;
    let mut plane = Guarded::unset(n + 3);
    let mut work = Guarded::unset(n + 2);
    assert_eq!(map_forward(heights, s, plane.lent(), work.lent()), Ok(()), "{s:?}");
    assert_eq!(plane.content()[..n], forward(heights, s), "{s:?}");
    assert!(work.content()[..n].iter().all(|&v| v == 0), "{s:?}: the work area is not zero");
    assert!(plane.is_unset_from(n) && work.is_unset_from(n), "{s:?}: a surplus is touched");
    let mut back = Guarded::<u16>::unset(n + 1);
    let mut work = Guarded::unset(n + 2);
    assert_eq!(map_backward(plane.content(), s, back.lent(), work.lent()), Ok(()), "{s:?}");
    assert_eq!(&back.content()[..n], heights, "{s:?}");
    assert!(work.content()[..n].iter().all(|&v| v == 0), "{s:?}: the work area is not zero");
    assert!(back.is_unset_from(n) && work.is_unset_from(n), "{s:?}: a surplus is touched");
}

/// A shape of sides up to `most`, at origins about 0 and at the largest, by either filter.
fn random_shape(random: &mut Random, most: usize) -> Shape {
    let ((x, y), (number, levels)) = (maps::origin(random), filter::kind(random));
    Shape::new(1 + random.below(most), 1 + random.below(most), levels).at(x, y).by(number)
}

#[test]
fn every_small_size_at_every_origin() {
    for width in 1..=9 {
        for height in 1..=9 {
            for (number, levels) in filter::kinds() {
                for heights in maps::maps(width, height) {
                    for (x, y) in maps::origins() {
                        there_and_back(&heights, Shape::new(width, height, levels).at(x, y).by(number));
                    }
                }
            }
        }
    }
}

#[test]
fn every_small_size_at_every_level_count() {
    for width in 1..=12 {
        for height in 1..=12 {
            for (number, levels) in filter::kinds() {
                for heights in maps::maps(width, height) {
                    there_and_back(&heights, Shape::new(width, height, levels).by(number));
                }
            }
        }
    }
}

#[test]
fn larger_and_odd_sizes() {
    let mut random = Random::new(1);
    for _ in 0..160 {
        let s = random_shape(&mut random, 90);
        for heights in maps::maps(s.width, s.height) {
            there_and_back(&heights, s);
        }
    }
    for (width, height) in
        [(1, 1), (1, 2), (2, 1), (1, 333), (333, 1), (2, 200), (200, 2), (2_049, 1), (2_049, 2), (2_049, 7), (2_048, 5), (1, 65_535), (2, 40_001)]
    {
        for (number, levels) in filter::few_kinds(&mut random) {
            for heights in maps::maps(width, height) {
                for (x, y) in [(0, 0), (1, 0), (0, 1), (65_535, 65_535)] {
                    there_and_back(&heights, Shape::new(width, height, levels).at(x, y).by(number));
                }
            }
        }
    }
}

/// Document 02, Q-5: a whole map of more rows than 16 bits count.
#[test]
fn a_map_of_70_000_rows() {
    let mut random = Random::new(70_000);
    for (number, filter) in (0..).zip(&FILTERS) {
        for (width, x, y) in [(1, 0, 0), (3, 1, 1)] {
            let heights: Vec<u16> = (0..width * 70_000).map(|_| random.below(65_536) as u16).collect();
            for levels in [1, filter.levels] {
                there_and_back(&heights, Shape::new(width, 70_000, levels).at(x, y).by(number));
            }
        }
    }
}

/// What backward must answer for a plane, by the definitions: 7, 14, or 0 with the map.
fn check_backward(plane: &[i32], s: Shape) -> u32 {
    let n = s.width * s.height;
    let mut heights = Guarded::<u16>::unset(n + 1);
    let mut work = Guarded::unset(n + 1);
    let lent = Guarded::new(plane);
    let answer = map_backward(lent.content(), s, heights.lent(), work.lent()).map_or_else(|q| q.number, |()| 0);
    assert_eq!(lent.content(), plane, "the plane is changed");
    assert!(heights.is_unset_from(n) && work.is_unset_from(n), "{s:?}: a surplus is touched");
    match map_of(&plane[..n], s) {
        Some(map) => {
            assert_eq!(answer, 0, "{s:?}: a map has this plane");
            assert_eq!(heights.content()[..n], map[..]);
            assert!(work.content()[..n].iter().all(|&v| v == 0));
        }
        None if in_range(plane, s) => {
            assert_eq!(answer, 14, "{s:?}: no map has this plane");
            assert!(heights.content()[..n].iter().all(|&v| v == 0), "14 zeroes the heights");
            assert!(work.content()[..n].iter().all(|&v| v == 0), "14 zeroes the work area");
        }
        None => {
            assert_eq!(answer, 7, "{s:?}: a coefficient is out of its level's range");
            assert!(heights.is_unset_from(0) && work.is_unset_from(0), "7 changes nothing");
        }
    }
    answer
}

#[test]
fn damaged_planes_are_turned_away_exactly_when_no_map_has_them() {
    let mut random = Random::new(77);
    let mut seen = [[0usize; 3]; FILTERS.len()];
    for _ in 0..12_000 {
        let s = random_shape(&mut random, 9);
        let all = maps::maps(s.width, s.height);
        let mut plane = forward(&all[random.below(all.len())], s);
        for _ in 0..1 + random.below(3) {
            let i = random.below(plane.len());
            let reach = range(s, level_at(s, i)) as i32;
            plane[i] = match random.below(8) {
                0 => reach,
                1 => -reach,
                2 => reach + 1,
                3 => -reach - 1,
                4 => random.word(),
                5 => plane[i].wrapping_add(1),
                6 => plane[i].wrapping_sub(1),
                _ => plane[i].wrapping_add(random.below(9) as i32 - 4),
            };
        }
        seen[s.filter as usize][match check_backward(&plane, s) {
            0 => 0,
            7 => 1,
            _ => 2,
        }] += 1;
    }
    assert!(seen.iter().flatten().all(|&n| n > 300), "each answer is tried often: {seen:?}");
}

/// Planes that pass 7 and are no map's: the sums of the 9/7 pass 32 bits on the way back.
#[test]
fn planes_at_the_ends_of_their_ranges() {
    let mut random = Random::new(78);
    for _ in 0..6_000 {
        let s = random_shape(&mut random, 17);
        let ends = random.below(2) == 0;
        let plane: Vec<i32> = (0..s.width * s.height)
            .map(|i| {
                let reach = range(s, level_at(s, i)) as i32;
                match random.below(if ends { 2 } else { 4 }) {
                    0 => reach,
                    1 => -reach,
                    _ => random.below(65_536) as i32,
                }
            })
            .collect();
        assert_ne!(check_backward(&plane, s), 7);
    }
}

#[test]
fn the_samples_of_the_scope() {
    let s = Shape::new(2, 2, 1);
    let mut plane = [0; 4];
    assert_eq!(map_forward(&[0, 2, 1, 1], s, &mut plane, &mut [0; 4]), Ok(()));
    assert_eq!(plane, [2, 1, 0, -2], "LL, HL, LH, HH");
    let column = Shape::new(1, 4, 2);
    assert_eq!(map_forward(&[1, 4, 2, 7], column, &mut plane, &mut [0; 4]), Ok(()));
    assert_eq!(plane, [4, 1, 3, 5], "2 LL 0, 2 LH 0, 1 LH 0, 1 LH 1");
    let one = Shape::new(1, 1, 5);
    assert_eq!(map_forward(&[65_535], one, &mut plane, &mut [0; 4]), Ok(()));
    assert_eq!(plane[0], 65_535);
    assert_eq!(check_backward(&[65_535], one), 0);
    assert_eq!(check_backward(&[65_536], one), 14);
    let flat = Shape::new(2, 1, 1);
    assert_ne!(check_backward(&[0, 262_140], flat), 7);
    assert_eq!(check_backward(&[0, 262_141], flat), 7);
    assert_ne!(check_backward(&[0, -262_140], flat), 7);
    assert_eq!(check_backward(&[0, -262_141], flat), 7);
}

/// Maps at odd origins, worked out by hand from document 02's words.
#[test]
fn the_samples_of_an_odd_origin() {
    let mut plane = [0; 4];
    let one = Shape { x: 1, y: 1, ..Shape::new(1, 1, 1) };
    assert_eq!(map_forward(&[65_535], one, &mut plane, &mut [0; 4]), Ok(()));
    assert_eq!(plane[0], 262_140, "HH, doubled each way");
    assert_eq!(check_backward(&[262_140], one), 0);
    assert_eq!(check_backward(&[2], one), 14, "2 is halved to 1, and 1 can not be halved");
    assert_eq!(check_backward(&[3], one), 14);
    assert_eq!(check_backward(&[4], one), 0);
    // two columns at (0, 1): LH 8, HH 6 are even, but not the columns that they are lifted back to
    let row = Shape { y: 1, ..Shape::new(2, 1, 1) };
    assert_eq!(check_backward(&[8, 6], row), 14);
    // a line 1, 4, 2 that starts at 1: high 1 - 4 and 2 - 4, low 4 + floor((-3 - 2 + 2) / 4)
    let line = Shape { x: 1, ..Shape::new(3, 1, 1) };
    assert_eq!(map_forward(&[1, 4, 2], line, &mut plane, &mut [0; 4]), Ok(()));
    assert_eq!(plane[..3], [3, -3, -2], "LL, HL");
}

/// Maps by the 9/7, worked out by hand from document 02's formulas.
#[test]
fn the_samples_of_the_nine_seven() {
    let mut plane = [0; 8];
    let by = |s: Shape| s.by(NINE_SEVEN);
    // 2, 0: the mirror gives 2 on both sides, high 0 - floor((36 - 4 + 8) / 16), low 2 - floor((2 + 2 + 2) / 4)
    assert_eq!(map_forward(&[2, 0], by(Shape::new(2, 1, 1)), &mut plane, &mut [0; 2]), Ok(()));
    assert_eq!(plane[..2], [1, -2], "LL, HL");
    // 1, 4, 2, 7: high 4 - floor((9 (1 + 2) - (2 + 2) + 8) / 16), 7 - floor((9 (2 + 2) - (1 + 1) + 8) / 16), low 1 - floor((2 - 3 - 3) / 4),
    // 2 - floor((2 - 3 - 5) / 4)
    assert_eq!(map_forward(&[1, 4, 2, 7], by(Shape::new(1, 4, 1)), &mut plane, &mut [0; 4]), Ok(()));
    assert_eq!(plane[..4], [2, 4, 3, 5], "LL 0, LL 1, LH 0, LH 1");
    // a lone sample is doubled at an odd coordinate, each way
    let one = by(Shape::new(1, 1, 4));
    assert_eq!(map_forward(&[65_535], one.at(1, 1), &mut plane, &mut [0; 1]), Ok(()));
    assert_eq!(plane[0], 262_140);
    assert_eq!([check_backward(&[65_535], one), check_backward(&[65_536], one), check_backward(&[3], one.at(1, 0))], [0, 14, 14]);
    // the range is 65,535 × 6^k
    for (levels, reach) in [(1, 393_210), (2, 2_359_260), (3, 14_155_560), (4, 84_933_360)] {
        let s = by(Shape::new(1, 1, levels));
        assert_eq!([check_backward(&[reach], s), check_backward(&[reach + 1], s), check_backward(&[-reach], s)], [14, 7, 14]);
    }
}

/// Start and length, or the number of the question that says no. The raw call takes any code of a band, and sets nothing where it is turned
/// away; where there is such a band, the wrapper says the same.
fn band_row(plane_len: usize, s: Shape, level: usize, band: usize, row: usize) -> Result<(usize, usize), u32> {
    let (mut start, mut length) = (UNSET, UNSET);
    let number = raw::band_row(plane_len, s, level, band, row, &mut start, &mut length);
    if number != 0 {
        assert_eq!((start, length), (UNSET, UNSET), "a refusal changes nothing");
    }
    let answer = if number == 0 { Ok((start, length)) } else { Err(number) };
    if let Some(&band) = [Band::Ll, Band::Hl, Band::Lh, Band::Hh].get(band) {
        let wrapped: Result<_, Question> = terrain::band_row(plane_len, s, level, band, row);
        assert_eq!(wrapped, answer.map(|(start, length)| start..start + length).or_else(|number| refusal(View, number)));
        if plane_len < 100 {
            let plane: Vec<i32> = (0..plane_len as i32).collect();
            assert_eq!(view(&plane, s, level, band, row), wrapped.map(|place| &plane[place]));
        }
    }
    answer
}

/// Both calls are turned away with `number`, and nothing lent has changed.
fn map_refused(s: Shape, lens: [usize; 3], number: u32) {
    let mut a = Guarded::<u16>::unset(lens[0]);
    let mut b = Guarded::unset(lens[1]);
    let mut c = Guarded::unset(lens[2]);
    let heights = Guarded::<u16>::unset(lens[0]);
    assert_eq!(map_forward(heights.content(), s, b.lent(), c.lent()), refusal(MapForward, number), "{s:?} {lens:?}");
    assert!(b.is_unset_from(0) && c.is_unset_from(0));
    let plane = Guarded::unset(lens[1]);
    assert_eq!(map_backward(plane.content(), s, a.lent(), c.lent()), refusal(MapBackward, number), "{s:?} {lens:?}");
    assert!(a.is_unset_from(0) && c.is_unset_from(0));
}

/// And the view, which has no filter.
fn refused(s: Shape, lens: [usize; 3], number: u32) {
    map_refused(s, lens, number);
    assert_eq!(band_row(lens[1], s, 1, 3, 0), Err(number), "{s:?} {lens:?}");
}

#[test]
fn the_questions_in_their_order() {
    for number in [0, 1].into_iter().chain(filter::UNKNOWN) {
        let ok = Shape::new(3, 3, 2).by(number);
        for width in [0, MAX_WIDTH + 1, usize::MAX] {
            for height in [0, 3, usize::MAX] {
                for levels in [0, 2, 6] {
                    refused(Shape { width, height, levels, ..ok }, [9, 9, 9], 2);
                }
            }
        }
        for height in [0, MAX_HEIGHT + 1, usize::MAX] {
            for levels in [0, 2, usize::MAX] {
                refused(Shape { height, levels, ..ok }, [9, 9, 9], 3);
            }
        }
    }
    for (number, filter) in (0..).zip(&FILTERS) {
        let ok = Shape::new(3, 3, 2).by(number);
        for levels in [0, filter.levels + 1, MAX_LEVELS + 1, usize::MAX] {
            map_refused(Shape { levels, ..ok }, [9, 0, 9], 4);
        }
        refused(ok, [8, 8, 9], 5);
        refused(ok, [0, 0, 0], 5);
        let mut plane = Guarded::unset(9);
        let mut work = Guarded::unset(8);
        assert_eq!(map_forward(&[1; 9], ok, plane.lent(), work.lent()), refusal(MapForward, 5));
        assert!(plane.is_unset_from(0) && work.is_unset_from(0));
        there_and_back(&vec![7; MAX_WIDTH], Shape::new(MAX_WIDTH, 1, filter.levels).by(number));
    }
}

/// 18 comes before 4 and 5, and from no view.
#[test]
fn an_unknown_filter() {
    for number in filter::UNKNOWN {
        for levels in [0, 1, 4, 5, 6, usize::MAX] {
            for lens in [[9, 9, 9], [0, 0, 0]] {
                map_refused(Shape::new(3, 3, levels).by(number), lens, 18);
            }
        }
        for levels in [0, MAX_LEVELS + 1, usize::MAX] {
            assert_eq!(band_row(9, Shape::new(3, 3, levels).by(number), 1, 3, 0), Err(4));
        }
    }
}

#[test]
fn the_view_is_the_plane_s_band_row() {
    for width in 1..=9 {
        for height in 1..=9 {
            for levels in 1..=MAX_LEVELS {
                for (x, y) in [(0, 0), (0, 1), (1, 0), (1, 1), (2, 3), (3, 2), (3, 3)] {
                    let s = Shape { x, y, ..Shape::new(width, height, levels) };
                    let mut covered = vec![0; width * height];
                    for level in 0..=levels + 1 {
                        for band in [0, 1, 2, 3, 4, 255, 256, 257, usize::MAX] {
                            for row in (0..=height).chain([usize::MAX]) {
                                let got = band_row(width * height + 2, s, level, band, row);
                                assert_eq!(got, expected(s, level, band, row).ok_or(6), "{s:?} {level} {band} {row}");
                                for number in [NINE_SEVEN, 2, u32::MAX] {
                                    assert_eq!(band_row(width * height + 2, s.by(number), level, band, row), got, "each filter has the same bands");
                                }
                                if let Ok((start, length)) = got {
                                    covered[start..start + length].iter_mut().for_each(|n| *n += 1);
                                }
                            }
                        }
                    }
                    assert!(covered.iter().all(|&n| n == 1), "{s:?}: each place stands in one band row");
                }
            }
        }
    }
}

#[test]
fn the_view_of_the_longest_maps() {
    for width in [1, 2, 3, 1_000, MAX_WIDTH] {
        for height in [MAX_HEIGHT - 1, MAX_HEIGHT] {
            for levels in 1..=MAX_LEVELS {
                let s = Shape { x: 65_535, y: 65_535, ..Shape::new(width, height, levels) };
                for (level, band) in (1..=levels).flat_map(|k| (0..4).map(move |b| (k, b))) {
                    let low = down(s).at(level).length;
                    let high = down(s).at(level - 1).length - low;
                    for row in [0, 1, 65_535, 65_536, high - 1, high, low - 1, low, height - 1, height, 1 << 32] {
                        let got = band_row(width * height, s, level, band, row);
                        assert_eq!(got, expected(s, level, band, row).ok_or(6), "{s:?} {level} {band} {row}");
                    }
                }
                assert_eq!(band_row(width * height - 1, s, 1, 2, 0), Err(5), "{s:?}");
            }
        }
    }
    assert_eq!(band_row(usize::MAX, Shape::new(1, MAX_HEIGHT + 1, 1), 1, 2, 0), Err(3));
}

/// Start and length by document 01, "The plane".
fn expected(s: Shape, level: usize, band: usize, row: usize) -> Option<(usize, usize)> {
    if level < 1 || level > s.levels || band > 3 || (band == 0 && level < s.levels) {
        return None;
    }
    let (w, h) = (across(s).at(level).length, down(s).at(level).length);
    let (right, below) = (across(s).at(level - 1).length - w, down(s).at(level - 1).length - h);
    let (high_across, high_down) = (band % 2 == 1, band >= 2);
    let (rows, length) = (if high_down { below } else { h }, if high_across { right } else { w });
    if row >= rows || length == 0 {
        return None;
    }
    let start = (row + if high_down { h } else { 0 }) * s.width + if high_across { w } else { 0 };
    Some((start, length))
}
