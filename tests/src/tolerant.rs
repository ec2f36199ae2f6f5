//! Rounding, the promised figure and what a tolerant reader makes of a plane, straight from document 02, Q-10 (5/3, origin 0): whole numbers, one
//! column after the other, and no thought for speed.
use crate::maps::{across, down, range};
use crate::reference;
use terrain::Shape;

/// Steps to try: the ends, the powers of two and some others.
pub const STEPS: [usize; 12] = [1, 2, 3, 4, 5, 7, 8, 16, 31, 32, 63, 64];

/// Whether LL stands at place i of a plane.
fn in_ll(s: Shape, i: usize) -> bool {
    i / s.width < down(s).at(s.levels).length && i % s.width < across(s).at(s.levels).length
}

/// "Each HL, LH and HH value goes toward zero to the nearest multiple of a step q ...; LL stays."
pub fn rounded(plane: &[i32], s: Shape, step: usize) -> Vec<i32> {
    let step = step as i64;
    let toward_zero = |v: i64| if v < 0 { -(-v / step * step) } else { v / step * step };
    plane.iter().enumerate().map(|(i, &v)| if in_ll(s, i) { v } else { toward_zero(v.into()) as i32 }).collect()
}

/// "Let e = q − 1 and f the error so far, 0 at level L. With A = f + e + ceil(e/2) and B = 2e + ceil(e/2), a level's error is at most
/// A + B + ceil(B/2)": level 1's figure.
pub fn figure(levels: usize, step: usize) -> usize {
    let e = step - 1;
    let b = 2 * e + e.div_ceil(2);
    (0..levels).fold(0, |f, _| {
        let a = f + e + e.div_ceil(2);
        a + b + b.div_ceil(2)
    })
}

/// A rebuilt value "limited ... to its level's range, heights to 0 to 65,535".
fn limited(s: Shape, level: usize, v: i64) -> i64 {
    v.clamp(if level == 0 { 0 } else { -range(s, level) }, range(s, level))
}

/// A column of level k back from its low and its high values: the even places first, each limited before the odd ones are rebuilt from them.
fn column_back(s: Shape, level: usize, low: &[i64], high: &[i64]) -> Vec<i64> {
    let n = low.len() + high.len();
    if n == 1 {
        return vec![limited(s, level, low[0])];
    }
    // outside the line a high value is the one at the mirrored place
    let d = |i: isize| high[i.clamp(0, high.len() as isize - 1) as usize];
    let even: Vec<i64> = (0..low.len()).map(|i| limited(s, level, low[i] - (d(i as isize - 1) + d(i as isize) + 2).div_euclid(4))).collect();
    let after = |i: usize| if i + 1 < even.len() { even[i + 1] } else { even[i] };
    let odd: Vec<i64> = (0..high.len()).map(|i| limited(s, level, high[i] + (even[i] + after(i)).div_euclid(2))).collect();
    (0..n).map(|i| if i % 2 == 0 { even[i / 2] } else { odd[i / 2] }).collect()
}

/// The rows of each level that a tolerant reader rebuilds from a plane whose numbers are in their levels' ranges: level k for k from 0 to L − 1.
pub fn rebuilt(plane: &[i32], s: Shape) -> Vec<Vec<Vec<i32>>> {
    let mut area: Vec<i32> = plane.to_vec();
    let mut grids = Vec::new();
    for k in (0..s.levels).rev() {
        let (w, h, low) = (across(s).at(k).length, down(s).at(k).length, down(s).at(k + 1).length);
        // rows are not limited: only LL values and heights are
        let rows: Vec<Vec<i32>> = (0..h).map(|r| reference::backward(&reference::interleaved(&area[r * s.width..r * s.width + w]))).collect();
        let mut made = vec![vec![0; w]; h];
        for c in 0..w {
            let values: Vec<i64> = rows.iter().map(|row| i64::from(row[c])).collect();
            for (r, v) in column_back(s, k, &values[..low], &values[low..]).into_iter().enumerate() {
                made[r][c] = v as i32;
            }
        }
        for (r, row) in made.iter().enumerate() {
            area[r * s.width..r * s.width + w].copy_from_slice(row);
        }
        grids.push(made);
    }
    grids.reverse();
    grids
}

#[cfg(test)]
mod tests {
    use super::*;
    use crate::maps;

    /// Where nothing is rounded nothing is limited: the transform's own way back.
    #[test]
    fn of_a_map_it_is_the_map() {
        for (width, height) in (1..=6).flat_map(|w| (1..=6).map(move |h| (w, h))) {
            for levels in 1..=5 {
                let s = Shape::new(width, height, levels);
                for heights in maps::maps(width, height) {
                    let plane = maps::forward(&heights, s);
                    let strict: Vec<_> = maps::rebuilt(&plane, s).into_iter().map(|grid| grid.rows).collect();
                    assert_eq!(rebuilt(&plane, s), strict);
                    assert_eq!(rounded(&plane, s, 1), plane);
                }
            }
        }
    }

    /// A column 0, 0, 10 at one level by a step of 8: the even rows are limited before the odd one is rebuilt from them.
    #[test]
    fn limited_before_further_use() {
        let s = Shape::new(1, 3, 1);
        let plane = maps::forward(&[0, 0, 10], s);
        assert_eq!(plane, [-2, 8, -5]);
        assert_eq!(rounded(&plane, s, 8), [-2, 8, 0]);
        assert_eq!(rebuilt(&[-2, 8, 0], s)[0].concat(), [0, 4, 8]);
    }
}
