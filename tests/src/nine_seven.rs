//! The integer 9/7 lifting of a line that starts anywhere on the grid, by document 02's own formulas: a coordinate outside the line is reflected
//! at its ends until it lies inside, even coordinates are low and odd ones high. It shares nothing with the proved code. What is stored of a
//! sum is its residue modulo 2^32, as signed.

fn kept(sum: i64) -> i64 {
    sum.rem_euclid(1 << 32) as u32 as i32 as i64
}

/// The sample at any coordinate i of a line that starts at i0.
fn reflected(line: &[i32], i0: i64, mut i: i64) -> i64 {
    let last = i0 + line.len() as i64 - 1;
    while i < i0 || last < i {
        i = if i < i0 { 2 * i0 - i } else { 2 * last - i };
    }
    line[(i - i0) as usize] as i64
}

fn even(i: i64) -> bool {
    i.rem_euclid(2) == 0
}

/// What four samples foretell of the one between them.
fn foretold(x: impl Fn(i64) -> i64, i: i64) -> i64 {
    (9 * (x(i - 1) + x(i + 1)) - (x(i - 3) + x(i + 3)) + 8).div_euclid(16)
}

/// The values, at the places of the samples. A line of one sample follows the 5/3's rule.
pub fn forward(line: &[i32], i0: i64) -> Vec<i32> {
    if let [only] = line {
        return vec![if even(i0) { *only } else { kept(2 * *only as i64) as i32 }];
    }
    let at = i0..i0 + line.len() as i64;
    let x = |i| reflected(line, i0, i);
    let highs: Vec<i32> = at.clone().map(|i| if even(i) { 0 } else { kept(x(i) - foretold(x, i)) as i32 }).collect();
    let d = |i| reflected(&highs, i0, i);
    at.map(|i| if even(i) { kept(x(i) - (2 - d(i - 1) - d(i + 1)).div_euclid(4)) as i32 } else { d(i) as i32 }).collect()
}

/// The line that has these values at its places. An only value at an odd coordinate is halved; an odd one has no half.
pub fn backward(values: &[i32], i0: i64) -> Option<Vec<i32>> {
    if let [only] = values {
        return if even(i0) { Some(vec![*only]) } else { (only % 2 == 0).then(|| vec![only / 2]) };
    }
    let at = i0..i0 + values.len() as i64;
    let y = |i| reflected(values, i0, i);
    let evens: Vec<i32> = at.clone().map(|i| if even(i) { kept(y(i) + (2 - y(i - 1) - y(i + 1)).div_euclid(4)) as i32 } else { 0 }).collect();
    let x = |i| reflected(&evens, i0, i);
    Some(at.map(|i| if even(i) { x(i) as i32 } else { kept(y(i) + foretold(x, i)) as i32 }).collect())
}
