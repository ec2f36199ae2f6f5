//! One level of the integer 9/7 on the way forward, in eight rows: every set's band rows against the columns and then the rows lifted by document
//! 02's formulas, for starts of either parity both ways.
use terrain_tests::areas::Guarded;
use terrain_tests::nine_seven_level::{slot, Level};
use terrain_tests::random::Random;
use terrain_tests::{grid, nine_seven};

/// The rows of a level's low and of its high half down, each lifted along the row and in halves.
fn bands(rows: &[Vec<i32>], x: i64, y: i64) -> [Vec<Vec<i32>>; 2] {
    let width = rows.first().map_or(0, Vec::len);
    let columns: Vec<Vec<i32>> = (0..width).map(|c| nine_seven::forward(&rows.iter().map(|row| row[c]).collect::<Vec<_>>(), y)).collect();
    let mut halves = [vec![], vec![]];
    for r in 0..rows.len() {
        let row: Vec<i32> = columns.iter().map(|column| column[r]).collect();
        halves[((y + r as i64) % 2) as usize].push(grid::in_halves(&nine_seven::forward(&row, x), x));
    }
    halves
}

fn whole(heights: &[Vec<u16>]) -> Vec<Vec<i32>> {
    heights.iter().map(|row| row.iter().map(|&h| h as i32).collect()).collect()
}

/// A level that is being made, what its sets should be, and how many low and high rows were seen.
struct Making {
    level: Level,
    store: Guarded,
    halves: [Vec<Vec<i32>>; 2],
    seen: [usize; 2],
}

impl Making {
    fn new(level: Level, heights: &[Vec<u16>]) -> Self {
        let numbers = 8 * (level.w + grid::lows(level.w, level.x as i64));
        Making { level, store: Guarded::unset(numbers), halves: bands(&whole(heights), level.x as i64, level.y as i64), seen: [0, 0] }
    }

    /// The low row of set n, if it has one.
    fn low(&self, n: usize) -> Option<&Vec<i32>> {
        n.checked_sub(self.level.y % 2).and_then(|k| self.halves[0].get(k))
    }

    /// The rows of set n stand where they wait.
    fn stands(&self, n: usize) -> [usize; 2] {
        let w = self.level.w;
        let at = |q: usize| &self.store.content()[slot(w, q)..slot(w, q) + w];
        let mut found = [0, 0];
        if let Some(low) = self.low(n) {
            assert_eq!(at(2 * n + 6), low, "low row of set {n}, {:?}", self.level);
            found[0] = 1;
        }
        if let Some(high) = self.halves[1].get(n) {
            assert_eq!(at(2 * n + 7), high, "high row of set {n}, {:?}", self.level);
            found[1] = 1;
        }
        found
    }

    /// Set n is made, and its LL row goes to the next level, where nothing else changes.
    fn made(&mut self, n: usize) {
        let found = self.stands(n);
        self.seen = [self.seen[0] + found[0], self.seen[1] + found[1]];
        let Level { w, x, y } = self.level;
        if let Some(low) = self.low(n) {
            let v = grid::lows(w, x as i64);
            let q = (y + 1) / 2 % 2 + (n - y % 2);
            let mut after = self.store.content().to_vec();
            after[8 * w + slot(v, q)..][..v].copy_from_slice(&grid::in_halves(&low[..v], (x as i64 + 1) / 2));
            assert_eq!(self.level.deliver(self.store.lent(), n, q), 0);
            assert_eq!(self.store.content(), after);
        }
    }
}

#[test]
fn every_set_has_the_bands_rows() {
    let mut random = Random::new(8);
    for w in 1..=6 {
        for h in 1..=16 {
            for start in 0..16 {
                let level = Level { w, x: start % 4, y: start / 4 };
                let most = [65_535, 65_535, 6][random.below(3)] + 1;
                let heights: Vec<Vec<u16>> = (0..h).map(|_| (0..w).map(|_| random.below(most) as u16).collect()).collect();
                let mut making = Making::new(level, &heights);
                let first = level.y % 2;
                for (r, row) in heights.iter().enumerate() {
                    let q = first + r;
                    let cut = random.below(w + 1);
                    assert_eq!(level.put(making.store.lent(), q, 0, &row[..cut]), 0);
                    // the rows of the set before wait while this one is begun
                    if 4 < q && q % 2 == 1 {
                        making.stands((q - 5) / 2);
                    }
                    assert_eq!(level.put(making.store.lent(), q, cut, &row[cut..]), 0);
                    if 4 <= q && q % 2 == 0 {
                        assert_eq!(level.make(making.store.lent(), (q - 4) / 2), 0);
                        making.made((q - 4) / 2);
                    }
                }
                let last = (first + h - 1) / 2;
                for n in last.saturating_sub(1)..=last {
                    assert_eq!(level.close(making.store.lent(), h, n), 0);
                    making.made(n);
                }
                assert_eq!(making.seen, [making.halves[0].len(), making.halves[1].len()], "{h} rows, {level:?}");
                // a set that there is not makes nothing
                let still = making.store.content().to_vec();
                for n in [last + 1, usize::MAX / 2, usize::MAX] {
                    assert_eq!(level.close(making.store.lent(), h, n), 0);
                }
                assert_eq!(making.store.content(), still);
            }
        }
    }
}

/// Only the number modulo 4 of a set that is not among the first counts, and only the parity of a start.
#[test]
fn any_number_of_a_set_and_any_start() {
    for w in 1..=5 {
        for k in 4..8 {
            for (x, y) in [(0, 0), (0, 1), (1, 0), (1, 1)] {
                let (mut one, mut other) = (Guarded::unset(8 * w), Guarded::unset(8 * w));
                assert_eq!(Level { w, x, y }.make(one.lent(), k), 0);
                let far = Level { w, x: usize::MAX - 1 + x, y: usize::MAX - 1 + y };
                assert_eq!(far.make(other.lent(), usize::MAX - 7 + k), 0);
                assert_eq!(one.content(), other.content());
            }
        }
    }
}

#[test]
fn a_store_too_short_gives_5_and_stays() {
    for w in 1..=6 {
        for x in 0..2 {
            let level = Level { w, x, y: 0 };
            for len in [0, 1, 8 * w - 1] {
                let mut store = Guarded::unset(len);
                assert_eq!(level.put(store.lent(), 0, 0, &vec![1; w]), 5);
                assert_eq!(level.make(store.lent(), 0), 5);
                assert_eq!(level.close(store.lent(), 9, 0), 5);
                assert_eq!(level.deliver(store.lent(), 0, 0), 5);
                assert!(store.is_unset_from(0));
            }
            let v = grid::lows(w, x as i64);
            let mut store = Guarded::unset((8 * (w + v)).saturating_sub(1));
            assert_eq!(level.deliver(store.lent(), 0, 0), 5);
            assert_eq!(level.put(store.lent(), 0, 1, &vec![1; w]), 5);
            assert!(store.is_unset_from(0));
        }
    }
    for w in [usize::MAX, usize::MAX / 8 + 1, usize::MAX / 4] {
        let mut store = Guarded::unset(16);
        assert_eq!(Level { w, x: 0, y: 0 }.make(store.lent(), 0), 5);
        assert_eq!(slot(w, 7), 0);
        assert!(store.is_unset_from(0));
    }
}

/// A band row: its level from 1, its band's code, its number.
type Name = (usize, usize, usize);

/// Levels one below another in one store, driven as document 01's writer drives them, and the band rows that they made, in their order.
struct Cascade {
    levels: Vec<Level>,
    begins: Vec<usize>,
    rows: Vec<usize>,
    store: Guarded,
    made: Vec<(Name, Vec<i32>)>,
}

impl Cascade {
    fn new(depth: usize, w: usize, x: usize, y: usize) -> Self {
        let (mut level, mut begin) = (Level { w, x, y }, 0);
        let (mut levels, mut begins) = (vec![], vec![]);
        for _ in 0..depth {
            levels.push(level);
            begins.push(begin);
            begin += 8 * level.w;
            level = Level { w: grid::lows(level.w, level.x as i64), x: (level.x + 1) / 2, y: (level.y + 1) / 2 };
        }
        // a level's LL row goes past its own stretch, the last one's nowhere
        Cascade { levels, begins, rows: vec![0; depth], store: Guarded::unset(begin), made: vec![] }
    }

    fn stretch(&mut self, k: usize) -> &mut [i32] {
        let begin = self.begins[k];
        &mut self.store.lent()[begin..]
    }

    /// A row of level k is complete.
    fn arrived(&mut self, k: usize) {
        let q = self.levels[k].y % 2 + self.rows[k];
        self.rows[k] += 1;
        if 4 <= q && q % 2 == 0 {
            let (level, n) = (self.levels[k], (q - 4) / 2);
            assert_eq!(level.make(self.stretch(k), n), 0);
            self.handed_out(k, n);
        }
    }

    /// Set n of level k stands: its rows, then what its LL row makes below.
    fn handed_out(&mut self, k: usize, n: usize) {
        let Level { w, x, y } = self.levels[k];
        let (first, last) = (y % 2, y % 2 + self.rows[k]);
        let low = grid::lows(w, x as i64);
        let has = [first <= n && 2 * n < last, 2 * n + 1 < last];
        for band in 0..4 {
            let (down, across) = (band / 2, band % 2);
            let columns = [low, w - low][across];
            if has[down] && 0 < columns && (0 < band || k + 1 == self.levels.len()) {
                let place = slot(w, 2 * n + 6 + down) + low * across;
                let row = self.stretch(k)[place..place + columns].to_vec();
                self.made.push(((k + 1, band, n - [first, 0][down]), row));
            }
        }
        if has[0] && 0 < low && k + 1 < self.levels.len() {
            let q = self.levels[k + 1].y % 2 + (n - first);
            assert_eq!(self.levels[k].deliver(self.stretch(k), n, q), 0);
            self.arrived(k + 1);
        }
    }

    /// All rows are there: each level makes the sets that are left, in their order.
    fn finished(&mut self) {
        for k in 0..self.levels.len() {
            if self.rows[k] == 0 || self.levels[k].w == 0 {
                continue;
            }
            let last = (self.levels[k].y % 2 + self.rows[k] - 1) / 2;
            for n in last.saturating_sub(1)..=last {
                let (level, m) = (self.levels[k], self.rows[k]);
                assert_eq!(level.close(self.stretch(k), m, n), 0);
                self.handed_out(k, n);
            }
        }
    }
}

/// The band rows of a map, level by level.
fn planes(depth: usize, heights: &[Vec<u16>], x: usize, y: usize) -> Vec<(Name, Vec<i32>)> {
    let (mut rows, mut x, mut y, mut names) = (whole(heights), x, y, vec![]);
    for k in 0..depth {
        let halves = bands(&rows, x as i64, y as i64);
        let low = grid::lows(rows.first().map_or(0, Vec::len), x as i64);
        for (down, half) in halves.iter().enumerate() {
            for (r, row) in half.iter().enumerate() {
                for (across, part) in [&row[..low], &row[low..]].into_iter().enumerate() {
                    let band = 2 * down + across;
                    if !part.is_empty() && (0 < band || k + 1 == depth) {
                        names.push(((k + 1, band, r), part.to_vec()));
                    }
                }
            }
        }
        rows = halves[0].iter().map(|row| row[..low].to_vec()).collect();
        (x, y) = ((x + 1) / 2, (y + 1) / 2);
    }
    names
}

fn cascaded(depth: usize, heights: &[Vec<u16>], x: usize, y: usize) -> (Cascade, usize) {
    let mut cascade = Cascade::new(depth, heights[0].len(), x, y);
    for (r, row) in heights.iter().enumerate() {
        let level = cascade.levels[0];
        assert_eq!(level.put(cascade.stretch(0), y % 2 + r, 0, row), 0);
        cascade.arrived(0);
    }
    let before = cascade.made.len();
    cascade.finished();
    (cascade, before)
}

#[test]
fn up_to_four_levels_one_below_another_make_the_maps_bands() {
    let mut random = Random::new(9);
    for depth in 1..=4 {
        for w in 1..=9 {
            for h in [1, 2, 3, 4, 5, 7, 11, 16, 23, 37] {
                let (x, y) = (random.below(16), random.below(16));
                let heights: Vec<Vec<u16>> = (0..h).map(|_| (0..w).map(|_| random.below(65_536) as u16).collect()).collect();
                let (cascade, _) = cascaded(depth, &heights, x, y);
                let mut made = cascade.made;
                made.sort();
                let mut all = planes(depth, &heights, x, y);
                all.sort();
                assert_eq!(made, all, "{depth} levels of {w} × {h} from {x}, {y}");
            }
        }
    }
}

/// Each set left at the finish is made with all that it makes below before the next.
#[test]
fn the_order_at_the_finish() {
    let heights: Vec<Vec<u16>> = (0..12).map(|r| vec![r, 7 * r]).collect();
    let (cascade, before) = cascaded(2, &heights, 0, 0);
    let names: Vec<Name> = cascade.made[before..].iter().map(|(name, _)| *name).collect();
    let wanted = [(1, 1, 4), (1, 2, 4), (1, 3, 4), (2, 0, 0), (2, 2, 0), (1, 1, 5), (1, 2, 5), (1, 3, 5), (2, 0, 1), (2, 2, 1), (2, 0, 2), (2, 2, 2)];
    assert_eq!(names, wanted);
}
