//! One level of the integer 9/7 on the way back, in eight rows: every row that a set makes, and 14, against the rows and then the columns lifted back by
//! document 02's formulas, for starts of either parity both ways.
use terrain_tests::areas::Guarded;
use terrain_tests::nine_seven_back::{row_place, work_set, Level};
use terrain_tests::random::Random;
use terrain_tests::{grid, nine_seven};

/// The set that makes the row at q, of rows that end before `end`.
fn set_of(q: usize, end: usize) -> usize {
    let last = (end - 1) / 2;
    match q {
        0 => 0,
        _ => ((q + 3) / 2).min(last),
    }
}

/// Whether a value may be a low-low value of level k.
fn fits(k: usize, value: i32) -> bool {
    match k {
        0 => (0..=65_535).contains(&value),
        _ => (value as i64).abs() <= 65_535 * 6i64.pow(k as u32),
    }
}

/// The rows of a level in halves, by their places, the row at q at place q.
struct Bands {
    level: Level,
    halves: Vec<Vec<i32>>,
}

impl Bands {
    /// Numbers of several sizes, most of them even, some so large that rows do not fit.
    fn new(level: Level, random: &mut Random, size: i64, some: usize) -> Self {
        let (b, lows) = (level.y % 2, grid::lows(level.w, level.x as i64));
        let mut halves = vec![vec![0; level.w]; b + level.h];
        for (q, row) in halves.iter_mut().enumerate().skip(b) {
            for (i, value) in row.iter_mut().enumerate() {
                let low = q % 2 == 0 && i < lows;
                let sum = if random.below(some) == 0 { random.bits() as i64 % size } else { 0 } + if low { 30_000 } else { 0 };
                *value = sum.clamp(i32::MIN as i64, i32::MAX as i64) as i32 & if random.below(9) == 0 { -1 } else { -2 };
            }
        }
        Bands { level, halves }
    }

    fn end(&self) -> usize {
        self.halves.len()
    }

    /// The row at q lifted back along the row; none where an odd number would be halved.
    fn row(&self, q: usize) -> Option<Vec<i32>> {
        let x = self.level.x as i64;
        nine_seven::backward(&grid::interleaved(&self.halves[q], x), x)
    }

    /// All rows of the level, once they are lifted back along the row. A row that is no line's counts as zeros: no row is made after it.
    fn rebuilt(&self) -> Option<Vec<Vec<i32>>> {
        let b = self.level.y % 2;
        let rows: Vec<Vec<i32>> = (b..self.end()).map(|q| self.row(q).unwrap_or_else(|| vec![0; self.level.w])).collect();
        let columns: Option<Vec<Vec<i32>>> =
            (0..self.level.w).map(|c| nine_seven::backward(&rows.iter().map(|row| row[c]).collect::<Vec<_>>(), b as i64)).collect();
        columns.map(|columns| (0..self.level.h).map(|r| columns.iter().map(|column| column[r]).collect()).collect())
    }

    /// The rows of set n.
    fn rows_of(&self, n: usize) -> impl Iterator<Item = usize> {
        (2 * n..2 * n + 2).filter(move |q| (self.level.y % 2..self.end()).contains(q)).collect::<Vec<_>>().into_iter()
    }

    /// The rows that set n makes.
    fn made_by(&self, n: usize) -> impl Iterator<Item = usize> {
        let end = self.end();
        (self.level.y % 2..end).filter(move |&q| set_of(q, end) == n)
    }

    /// The band rows of set n put where they are collected; below the last level its low-low row where the next level makes it.
    fn feed(&self, stretch: &mut [i32], n: usize) {
        let Level { last, w, x, y, .. } = self.level;
        let lows = grid::lows(w, x as i64);
        for q in self.rows_of(n) {
            let at = row_place(w, q);
            let from = if last || q % 2 == 1 { 0 } else { lows };
            stretch[at + from..at + w].copy_from_slice(&self.halves[q][from..]);
            if from != 0 {
                let next = 8 * w + row_place(lows, (y + 1) / 2 % 2 + n - y % 2);
                stretch[next..next + lows].copy_from_slice(&grid::in_halves(&self.halves[q][..lows], (x as i64 + 1) / 2));
            }
        }
    }

    /// What set n is answered.
    fn answer(&self, rebuilt: &Option<Vec<Vec<i32>>>, n: usize) -> u32 {
        let b = self.level.y % 2;
        let odd = self.rows_of(n).any(|q| self.row(q).is_none());
        let unfit = self.made_by(n).any(|q| match rebuilt {
            Some(rows) => rows[q - b].iter().any(|&value| !fits(self.level.k, value)),
            None => true,
        });
        if odd || unfit { 14 } else { 0 }
    }

    fn check(&self) -> bool {
        let Level { last, w, x, y, .. } = self.level;
        let own = 8 * w;
        let rebuilt = self.rebuilt();
        let mut area = Guarded::unset(own + if last { 0 } else { 8 * grid::lows(w, x as i64) });
        for n in 0..=(self.end() - 1) / 2 {
            self.feed(area.lent(), n);
            let next = area.content()[own..].to_vec();
            let answer = work_set(area.lent(), self.level, n);
            assert_eq!(answer, self.answer(&rebuilt, n), "{:?}, set {n}", self.level);
            assert_eq!(area.content()[own..], next, "the next level's rows are touched");
            if answer == 14 {
                assert!(area.content()[..own].iter().all(|&value| value == 0), "14 without zeros");
                return false;
            }
            for q in self.made_by(n) {
                let at = row_place(w, q);
                let rows = rebuilt.as_ref().expect("a row is made");
                assert_eq!(grid::interleaved(&area.content()[at..at + w], x as i64), rows[q - y % 2], "{:?}, set {n}, the row at {q}", self.level);
            }
        }
        true
    }
}

/// Levels of few columns and rows, at starts of either parity both ways.
fn each(mut check: impl FnMut(Level)) {
    for w in 1..=6 {
        for h in 1..=16 {
            for (x, y) in [(0, 0), (0, 1), (1, 0), (1, 1), (2, 3), (3, 2)] {
                for last in [false, true] {
                    for k in 0..4 {
                        check(Level { last, k, w, h, x, y });
                    }
                }
            }
        }
    }
}

#[test]
fn each_set_makes_its_rows_or_is_answered_14() {
    let mut random = Random::new(97);
    let mut all = [0, 0];
    each(|level| {
        for (size, some) in [(1 << 14, 1), (1 << 16, 9), (1 << 20, 30), (1 << 32, 40)] {
            all[Bands::new(level, &mut random, size, some).check() as usize] += 1;
        }
    });
    assert!(all[0] > 1_000 && all[1] > 1_000, "{all:?}");
}

#[test]
fn what_does_not_fit_is_answered_5() {
    each(|level| {
        let own = 8 * level.w + if level.last { 0 } else { 8 * grid::lows(level.w, level.x as i64) };
        let sets = (level.y % 2 + level.h - 1) / 2 + 1;
        for (level, length, n) in [(level, own - 1, 0), (level, own, sets), (Level { k: 5, ..level }, own, 0), (Level { h: 0, ..level }, own, 0)] {
            let mut area = Guarded::unset(length);
            assert_eq!(work_set(area.lent(), level, n), 5, "{level:?}, set {n}");
            assert!(area.is_unset_from(0), "5 and something changed");
        }
    });
}

/// One column, 7 rows, L = 1, LL row 1 = 70,000, all else 0: 14 in the feed of LH row 2, which ends set 2.
#[test]
fn a_row_is_asked_14_with_the_set_that_makes_it() {
    let level = Level { last: true, k: 0, w: 1, h: 7, x: 0, y: 0 };
    let mut halves = vec![vec![0]; 7];
    halves[2][0] = 70_000;
    let bands = Bands { level, halves };
    let mut area = Guarded::new(&[0; 8]);
    let answers: Vec<u32> = (0..3)
        .map(|n| {
            bands.feed(area.lent(), n);
            work_set(area.lent(), level, n)
        })
        .collect();
    assert_eq!(answers, [0, 0, 14]);
}
