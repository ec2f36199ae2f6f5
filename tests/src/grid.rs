//! Lines that start anywhere on the grid, by ITU-T T.800's own procedures: a signal on the coordinates i0 to i1 - 1 is extended on both sides
//! (F.3.7, F.4.7) and filtered over the coordinates (F.3.8, F.4.8), even ones low and odd ones high. It shares nothing with `reference`,
//! which changes a line in place, nor with the proved code. What is stored of a sum is its residue modulo 2^32, as signed.

fn kept(sum: i64) -> i64 {
    sum.rem_euclid(1 << 32) as u32 as i32 as i64
}

/// T.800's periodic symmetric extension: the sample at any coordinate i of a signal that starts at i0.
fn extended(signal: &[i32], i0: i64, i: i64) -> i64 {
    let period = 2 * (signal.len() as i64 - 1);
    let r = (i - i0).rem_euclid(period);
    signal[r.min(period - r) as usize] as i64
}

fn even(i: i64) -> bool {
    i.rem_euclid(2) == 0
}

/// F.4.8.1: Y(2n+1), then Y(2n), at the places of the samples. A signal of one sample goes apart.
pub fn forward(line: &[i32], i0: i64) -> Vec<i32> {
    if let [only] = line {
        return vec![if even(i0) { *only } else { kept(2 * *only as i64) as i32 }];
    }
    let x = |i| extended(line, i0, i);
    let high = |i: i64| kept(x(i) - (x(i - 1) + x(i + 1)).div_euclid(2));
    let low = |i: i64| kept(x(i) + (high(i - 1) + high(i + 1) + 2).div_euclid(4));
    (i0..i0 + line.len() as i64).map(|i| if even(i) { low(i) as i32 } else { high(i) as i32 }).collect()
}

/// F.3.8.1: X(2n), then X(2n+1). An only value at an odd coordinate is halved; an odd one has no half.
pub fn backward(values: &[i32], i0: i64) -> Option<Vec<i32>> {
    if let [only] = values {
        return if even(i0) { Some(vec![*only]) } else { (only % 2 == 0).then(|| vec![only / 2]) };
    }
    let y = |i| extended(values, i0, i);
    let low = |i: i64| kept(y(i) - (y(i - 1) + y(i + 1) + 2).div_euclid(4));
    let high = |i: i64| kept(y(i) + (low(i - 1) + low(i + 1)).div_euclid(2));
    Some((i0..i0 + values.len() as i64).map(|i| if even(i) { low(i) as i32 } else { high(i) as i32 }).collect())
}

/// How many of n coordinates from i0 on are even.
pub fn lows(n: usize, i0: i64) -> usize {
    (i0..i0 + n as i64).filter(|&i| even(i)).count()
}

/// The even coordinates first, then the odd ones.
pub fn in_halves(line: &[i32], i0: i64) -> Vec<i32> {
    let half = |low: bool| line.iter().zip(i0..).filter(move |(_, i)| even(*i) == low).map(|(&v, _)| v);
    half(true).chain(half(false)).collect()
}

/// The line whose even and odd coordinates these are.
pub fn interleaved(halves: &[i32], i0: i64) -> Vec<i32> {
    let (mut low, mut high) = (halves.iter(), halves[lows(halves.len(), i0)..].iter());
    (i0..i0 + halves.len() as i64).map(|i| *if even(i) { low.next() } else { high.next() }.expect("a half is long enough")).collect()
}

#[cfg(test)]
mod tests {
    use super::*;
    use crate::areas::{lengths, lines};
    use crate::reference;

    #[test]
    fn at_an_even_start_it_is_the_other_reading() {
        for n in lengths() {
            for line in lines(n) {
                for i0 in [0, 2, 65_534] {
                    assert_eq!(forward(&line, i0), reference::forward(&line));
                    assert_eq!(backward(&line, i0), Some(reference::backward(&line)));
                    assert_eq!(in_halves(&line, i0), reference::in_halves(&line));
                }
            }
        }
    }

    #[test]
    fn halves_and_back() {
        for n in 0..12 {
            let line: Vec<i32> = (0..n).collect();
            for i0 in 0..4 {
                assert_eq!(interleaved(&in_halves(&line, i0), i0), line);
            }
        }
        assert_eq!(in_halves(&[0, 1, 2, 3, 4], 1), [1, 3, 0, 2, 4]);
    }
}
