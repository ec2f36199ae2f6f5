//! A second lifting of one line, written straight from ITU-T T.800, Annex F (reversible 5/3), and knowing nothing of the proved code:
//! low and high values interleaved at the places of the samples, each place outside the line mirrored, sums in 64 bits.
//! What is stored of a sum is its residue modulo 2^32, as signed.

/// The place in a line of `n` samples that place `p` is mirrored to. The end samples are not repeated.
fn mirror(mut p: i64, n: usize) -> usize {
    let last = n as i64 - 1;
    while p < 0 || p > last {
        p = if p < 0 { -p } else { 2 * last - p };
    }
    p as usize
}

/// One lifting step over the places of one parity: each is changed, by `sign`, by the floor of (its two neighbours + `plus`) / `by`.
fn step(y: &mut [i32], parity: usize, sign: i64, plus: i64, by: i64) {
    let n = y.len();
    for p in (parity..n).step_by(2) {
        let left = y[mirror(p as i64 - 1, n)] as i64;
        let right = y[mirror(p as i64 + 1, n)] as i64;
        let sum = y[p] as i64 + sign * (left + right + plus).div_euclid(by);
        y[p] = sum.rem_euclid(1 << 32) as u32 as i32;
    }
}

/// The samples of a line to its values, low ones at the even places and high ones at the odd.
pub fn forward(line: &[i32]) -> Vec<i32> {
    let mut y = line.to_vec();
    if y.len() > 1 {
        step(&mut y, 1, -1, 0, 2);
        step(&mut y, 0, 1, 2, 4);
    }
    y
}

/// Interleaved values back to the samples of their line.
pub fn backward(values: &[i32]) -> Vec<i32> {
    let mut x = values.to_vec();
    if x.len() > 1 {
        step(&mut x, 0, -1, 2, 4);
        step(&mut x, 1, 1, 0, 2);
    }
    x
}

/// The even places first, then the odd ones.
pub fn in_halves(line: &[i32]) -> Vec<i32> {
    line.iter().step_by(2).chain(line.iter().skip(1).step_by(2)).copied().collect()
}

/// The line whose even and odd places these are.
pub fn interleaved(halves: &[i32]) -> Vec<i32> {
    let low = halves.len().div_ceil(2);
    (0..halves.len()).map(|p| if p % 2 == 0 { halves[p / 2] } else { halves[low + p / 2] }).collect()
}

#[cfg(test)]
mod tests {
    use super::*;
    use crate::areas::{lengths, lines};

    /// Low values, then high values.
    fn coefficients(line: &[i32]) -> Vec<i32> {
        in_halves(&forward(line))
    }

    #[test]
    fn the_samples_of_the_scope() {
        assert_eq!(coefficients(&[1, 4, 2, 7, 3]), [3, 4, 6, 3, 5]);
        assert_eq!(coefficients(&[2, 0]), [1, -2]);
        assert_eq!(coefficients(&[5, 0]), [3, -5]);
        assert_eq!(coefficients(&[9]), [9]);
        assert_eq!(coefficients(&[]), [0; 0]);
    }

    #[test]
    fn the_column_of_the_scope_at_two_levels() {
        assert_eq!(coefficients(&[1, 4, 2, 7]), [3, 4, 3, 5]);
        assert_eq!(coefficients(&[3, 4]), [4, 1]);
    }

    #[test]
    fn places_outside_are_mirrored() {
        let five: Vec<usize> = (-5..10).map(|p| mirror(p, 5)).collect();
        assert_eq!(five, [3, 4, 3, 2, 1, 0, 1, 2, 3, 4, 3, 2, 1, 0, 1]);
        assert_eq!([mirror(-1, 2), mirror(2, 2)], [1, 0]);
    }

    #[test]
    fn sums_are_kept_modulo_two_to_the_32() {
        assert_eq!(forward(&[i32::MIN, i32::MAX]), [i32::MIN, -1]);
        assert_eq!(forward(&[i32::MAX, i32::MIN]), [i32::MIN, 1]);
    }

    #[test]
    fn there_and_back() {
        for n in lengths() {
            for line in lines(n) {
                assert_eq!(backward(&forward(&line)), line);
                assert_eq!(forward(&backward(&line)), line);
                assert_eq!(interleaved(&in_halves(&line)), line);
            }
        }
    }
}
