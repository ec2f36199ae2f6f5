//! What the two filters differ in, by their numbers: document 01's 5/3 and document 02's integer 9/7.
use crate::random::Random;
use crate::{grid, nine_seven};
use terrain::Shape;

pub const FIVE_THREE: u32 = 0;
pub const NINE_SEVEN: u32 = 1;

pub struct Filter {
    /// The most levels.
    pub levels: usize,
    /// By how many times a level's range exceeds that of the one before.
    growth: i64,
    /// The rows of line store that a level has.
    pub rows: usize,
    /// Set n of a level is made when its row 2n + 2 × ahead is complete.
    pub ahead: usize,
    /// How far from a high sample the even samples stand that it goes by, mirrored at the ends.
    pub near: &'static [i64],
    /// A line to its values, at the places of the samples, and back.
    pub forward: fn(&[i32], i64) -> Vec<i32>,
    pub backward: fn(&[i32], i64) -> Option<Vec<i32>>,
}

pub const FILTERS: [Filter; 2] = [
    Filter { levels: 5, growth: 4, rows: 4, ahead: 1, near: &[-1, 1], forward: grid::forward, backward: grid::backward },
    Filter { levels: 4, growth: 6, rows: 8, ahead: 2, near: &[-3, -1, 1, 3], forward: nine_seven::forward, backward: nine_seven::backward },
];

/// Numbers that no filter has.
pub const UNKNOWN: [u32; 4] = [2, 3, 256, u32::MAX];

/// The filter of a map.
pub fn of(s: Shape) -> &'static Filter {
    &FILTERS[s.filter as usize]
}

impl Filter {
    /// Largest magnitude of a coefficient of a level; of level 0, the largest height.
    pub fn range(&self, level: usize) -> i64 {
        65_535 * self.growth.pow(level as u32)
    }
}

/// Every filter at every number of levels that it has.
pub fn kinds() -> impl Iterator<Item = (u32, usize)> {
    (0..).zip(&FILTERS).flat_map(|(number, filter)| (1..=filter.levels).map(move |levels| (number, levels)))
}

/// A filter, one level, a number between and the most that it has.
pub fn few_kinds(random: &mut Random) -> Vec<(u32, usize)> {
    (0..).zip(&FILTERS).flat_map(|(number, filter)| [1, 2 + random.below(filter.levels - 2), filter.levels].map(|levels| (number, levels))).collect()
}

/// One of the filters and a number of levels that it has.
pub fn kind(random: &mut Random) -> (u32, usize) {
    let number = random.below(FILTERS.len());
    (number as u32, 1 + random.below(FILTERS[number].levels))
}
