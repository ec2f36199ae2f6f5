//! Brush strokes against a second reading: what is in reach, in 02's words, has the reference's plane of the new heights, all else stays.
use terrain::Call::MapMend;
use terrain::{map_mend, raw, Rectangle, Shape};
use terrain_tests::areas::Guarded;
use terrain_tests::maps::forward;
use terrain_tests::random::Random;
use terrain_tests::refusal;

/// Whether changed places a to b of one direction reach number n of its high or low half: 02's sentence, over whole numbers.
fn reaches((a, b): (i64, i64), high: bool, n: i64) -> bool {
    if high {
        2 * n <= b && 2 * n + 2 >= a
    } else {
        2 * n - 2 <= b && 2 * n + 2 >= a
    }
}

/// "the low reach is the changed range of the next level", of `count` low values.
fn low_range(range: (i64, i64), count: i64) -> (i64, i64) {
    let reached: Vec<i64> = (0..count).filter(|&n| reaches(range, false, n)).collect();
    (reached[0], reached[reached.len() - 1])
}

/// Whether the place at row r and column c of the plane is in reach of the rectangle.
fn in_reach(s: Shape, q: Rectangle, r: usize, c: usize) -> bool {
    let (mut w, mut h, r, c) = (s.width as i64, s.height as i64, r as i64, c as i64);
    let mut columns = (q.left as i64, (q.left + q.width) as i64 - 1);
    let mut rows = (q.top as i64, (q.top + q.height) as i64 - 1);
    for _ in 0..s.levels {
        let (low_w, low_h) = ((w + 1) / 2, (h + 1) / 2);
        let (across, down) = (c >= low_w, r >= low_h);
        if across || down {
            let (n, m) = (if across { c - low_w } else { c }, if down { r - low_h } else { r });
            return reaches(columns, across, n) && reaches(rows, down, m);
        }
        (columns, rows) = (low_range(columns, low_w), low_range(rows, low_h));
        (w, h) = (low_w, low_h);
    }
    (columns.0..=columns.1).contains(&c) && (rows.0..=rows.1).contains(&r)
}

fn heights(random: &mut Random, n: usize) -> Vec<u16> {
    (0..n).map(|_| random.bits() as u16).collect()
}

/// The heights with new ones in the rectangle.
fn painted(random: &mut Random, old: &[u16], s: Shape, q: Rectangle) -> Vec<u16> {
    let inside = |i: usize| (q.left..q.left + q.width).contains(&(i % s.width)) && (q.top..q.top + q.height).contains(&(i / s.width));
    old.iter().enumerate().map(|(i, &v)| if inside(i) { random.bits() as u16 } else { v }).collect()
}

/// One stroke on a plane, which need be no map's, place by place; the work area is zero, every surplus and guard untouched.
fn stroke(new: &[u16], s: Shape, q: Rectangle, before: &[i32]) -> Vec<i32> {
    let n = s.width * s.height;
    let mut content = before.to_vec();
    content.extend([7, 8, 9]);
    let (mut plane, mut work) = (Guarded::new(&content), Guarded::unset(n + 2));
    assert_eq!(map_mend(new, s, q, plane.lent(), work.lent()), Ok(()), "{s:?} {q:?}");
    let whole = forward(new, s);
    let due = |i: usize| if in_reach(s, q, i / s.width, i % s.width) { whole[i] } else { before[i] };
    assert_eq!(plane.content()[..n], (0..n).map(due).collect::<Vec<_>>(), "{s:?} {q:?}");
    assert_eq!(plane.content()[n..], [7, 8, 9], "{s:?} {q:?}");
    assert!(work.content()[..n].iter().all(|&v| v == 0) && work.is_unset_from(n), "{s:?} {q:?}");
    plane.content()[..n].to_vec()
}

/// On the plane of a map that is equal outside the rectangle, which becomes the new map's, and on a plane of no map.
fn both_planes(random: &mut Random, s: Shape, q: Rectangle) {
    let old = heights(random, s.width * s.height);
    let new = painted(random, &old, s, q);
    assert_eq!(stroke(&new, s, q, &forward(&old, s)), forward(&new, s), "{s:?} {q:?}");
    let any: Vec<i32> = old.iter().map(|_| random.word()).collect();
    stroke(&new, s, q, &any);
}

#[test]
fn every_rectangle_of_small_maps() {
    let random = &mut Random::new(9);
    for (width, height) in (1..=6).flat_map(|w| (1..=6).map(move |h| (w, h))) {
        for (left, top) in (0..width).flat_map(|l| (0..height).map(move |t| (l, t))) {
            for (w, h) in (1..=width - left).flat_map(|w| (1..=height - top).map(move |h| (w, h))) {
                for levels in 1..=5 {
                    both_planes(random, Shape::new(width, height, levels), Rectangle { left, top, width: w, height: h });
                }
            }
        }
    }
}

#[test]
fn larger_maps() {
    let random = &mut Random::new(32);
    for turn in 0..400 {
        let most = if turn % 8 == 0 { 300 } else { 80 };
        let s = Shape::new(1 + random.below(most), 1 + random.below(most), 1 + random.below(5));
        let (left, top) = (random.below(s.width), random.below(s.height));
        let most = if turn % 4 == 0 { 300 } else { 8 };
        let side = |random: &mut Random, rest: usize| 1 + random.below(rest.min(most));
        let q = Rectangle { left, top, width: side(random, s.width - left), height: side(random, s.height - top) };
        both_planes(random, s, q);
    }
}

/// Strokes one after the other: the plane is the bake's after each.
#[test]
fn an_editor() {
    let random = &mut Random::new(14);
    let s = Shape::new(97, 61, 4);
    let mut map = heights(random, s.width * s.height);
    let mut plane = forward(&map, s);
    for _ in 0..60 {
        let (left, top) = (random.below(s.width), random.below(s.height));
        let q = Rectangle { left, top, width: 1 + random.below(s.width - left), height: 1 + random.below(s.height - top) };
        map = painted(random, &map, s, q);
        plane = stroke(&map, s, q, &plane);
        assert_eq!(plane, forward(&map, s));
    }
}

/// Two artists in rectangles that share no height: either order of their strokes ends in the same plane, from any plane, and from the starting
/// map's it is the bake's.
#[test]
fn two_artists() {
    let random = &mut Random::new(41);
    for _ in 0..300 {
        let s = Shape::new(2 + random.below(50), 1 + random.below(50), 1 + random.below(5));
        let edge = 1 + random.below(s.width - 1);
        let within = |random: &mut Random, from: usize, to: usize| {
            let first = from + random.below(to - from);
            (first, 1 + random.below(to - first))
        };
        let mut rectangle = |from, to| {
            let ((left, width), (top, height)) = (within(random, from, to), within(random, 0, s.height));
            Rectangle { left, top, width, height }
        };
        let (p, q) = (rectangle(0, edge), rectangle(edge, s.width));
        let start = heights(random, s.width * s.height);
        let (one, other) = (painted(random, &start, s, p), painted(random, &start, s, q));
        let both: Vec<u16> = (0..start.len()).map(|i| if one[i] != start[i] { one[i] } else { other[i] }).collect();
        for before in [forward(&start, s), start.iter().map(|_| random.word()).collect()] {
            let first = stroke(&both, s, q, &stroke(&one, s, p, &before));
            let second = stroke(&both, s, p, &stroke(&other, s, q, &before));
            assert_eq!(first, second, "{s:?} {p:?} {q:?}");
            assert!(before != forward(&start, s) || first == forward(&both, s), "{s:?} {p:?} {q:?}");
        }
    }
}

/// 2, 3, 4, 5 of each area, 19, in this order; nothing is changed.
#[test]
fn turned_away() {
    let ok = Rectangle { left: 1, top: 1, width: 2, height: 1 };
    let refused = |s: Shape, q: Rectangle, lens: [usize; 3], number: u32| {
        let (heights, mut plane, mut work) = (vec![3u16; lens[0]], Guarded::<i32>::unset(lens[1]), Guarded::<i32>::unset(lens[2]));
        assert_eq!(map_mend(&heights, s, q, plane.lent(), work.lent()), refusal(MapMend, number), "{s:?} {q:?} {lens:?}");
        assert!(plane.is_unset_from(0) && work.is_unset_from(0), "{s:?} {q:?} {lens:?}");
    };
    let (none, m) = (Rectangle::default(), usize::MAX);
    for (width, height, levels, number) in [(0, 0, 0, 2), (2050, 0, 0, 2), (3, 0, 0, 3), (3, m, 0, 3), (3, 2, 0, 4), (3, 2, 6, 4)] {
        refused(Shape::new(width, height, levels), none, [0, 0, 0], number);
    }
    for lens in [[5, 6, 6], [6, 5, 6], [6, 6, 5], [0, 0, 0]] {
        refused(Shape::new(3, 2, 5), none, lens, 5);
    }
    let at = |left, top, width, height| Rectangle { left, top, width, height };
    let outside = [none, at(1, 1, 0, 1), at(1, 1, 2, 0), at(2, 1, 2, 1), at(1, 1, 2, 2), at(3, 0, 1, 1), at(0, 2, 1, 1)];
    let wrapping = [at(m, 1, 2, 1), at(1, m, 2, 1), at(1, 1, m, 1), at(1, 1, 2, m), at(m, m, m, m), at(2, 1, m, 1), at(m - 1, 1, 3, 1), at(0, 0, 0, m)];
    for q in outside.into_iter().chain(wrapping) {
        refused(Shape::new(3, 2, 1), q, [6, 6, 6], 19);
    }
    assert_eq!(raw::map_mend(&[1; 6], 3, 2, 1, ok, &mut [0; 6], &mut [0; 6]), 0);
}
