//! The profile of a row against four plain passes, bit for bit, and the rows and areas that are turned away. Rust never fuses a product and a
//! sum, so the passes here are document 02's own.
use terrain::{profile, Call, Question, MAX_WIDTH};
use terrain_tests::random::Random;
use terrain_tests::refusal;

/// The factors, by their bits.
const FACTORS: [u32; 4] = [0xbfcb_0673, 0xbd59_01ae, 0x3f62_0676, 0x3ee3_1355];

/// The decimals that document 02 gives.
const DECIMALS: [&str; 4] = ["-1.586134342", "-0.052980118", "0.882911075", "0.443506852"];

/// c × (left + right) is added to every second sample, from `first` on; the neighbour outside the row is the one at the mirrored place.
fn pass(x: &mut [f32], first: usize, c: f32) {
    let last = x.len() - 1;
    for i in (first..x.len()).step_by(2) {
        let left = if i == 0 { x[1] } else { x[i - 1] };
        let right = if i == last { x[last - 1] } else { x[i + 1] };
        let sum = left + right;
        let product = c * sum;
        x[i] += product;
    }
}

fn four_passes(row: &[u16]) -> Vec<f32> {
    let mut x: Vec<f32> = row.iter().map(|&h| f32::from(h)).collect();
    if x.len() > 1 {
        for (k, &bits) in FACTORS.iter().enumerate() {
            pass(&mut x, (k + 1) % 2, f32::from_bits(bits));
        }
    }
    x
}

const GUARD: usize = 16;

/// An area that no call has written: NaNs that differ, so that the least change of a bit is seen.
fn unset(i: usize) -> u32 {
    0x7fa0_0000 + i as u32
}

/// What the call answers with an area of `len` floats, and the bits in it; the places around it are looked at.
fn called(row: &[u16], len: usize) -> (Result<(), Question>, Vec<u32>) {
    let mut all: Vec<f32> = (0..len + 2 * GUARD).map(|i| f32::from_bits(unset(i))).collect();
    let lent = row.to_vec();
    let answer = profile(&lent, &mut all[GUARD..GUARD + len]);
    assert_eq!(lent, row, "the row is changed");
    let bits: Vec<u32> = all.iter().map(|x| x.to_bits()).collect();
    assert!((0..GUARD).chain(GUARD + len..bits.len()).all(|i| bits[i] == unset(i)), "written outside the area");
    (answer, bits[GUARD..GUARD + len].to_vec())
}

fn untouched(bits: &[u32], from: usize) -> bool {
    (from..bits.len()).all(|i| bits[i] == unset(GUARD + i))
}

/// Rows of `n` heights: constants, the largest steps, slopes, and random ones.
fn rows(n: usize) -> Vec<Vec<u16>> {
    let mut random = Random::new(n as u64);
    let mut made: Vec<Vec<u16>> = vec![vec![0; n], vec![65_535; n], vec![1; n]];
    made.push((0..n).map(|i| if i % 2 == 0 { 0 } else { 65_535 }).collect());
    made.push((0..n).map(|i| if i % 2 == 0 { 65_535 } else { 0 }).collect());
    made.push((0..n).map(|i| if i % 4 < 2 { 65_535 } else { 0 }).collect());
    made.push((0..n).map(|i| (31 * i) as u16).collect());
    made.push((0..n).map(|i| if i == n / 2 { 65_535 } else { 0 }).collect());
    for _ in 0..6 {
        made.push((0..n).map(|_| random.below(65_536) as u16).collect());
    }
    made
}

fn lengths() -> Vec<usize> {
    let mut all: Vec<usize> = (1..=130).collect();
    all.extend([255, 256, 257, 511, 512, 513, 1_000, 1_024, 1_025, 1_026, 2_046, 2_047, 2_048, MAX_WIDTH]);
    all
}

#[test]
fn the_factors_are_the_nearest_floats() {
    for (bits, decimal) in FACTORS.into_iter().zip(DECIMALS) {
        assert_eq!(decimal.parse::<f32>().expect("a number").to_bits(), bits, "{decimal}");
    }
}

#[test]
fn a_row_gets_the_floats_of_the_four_passes_bit_for_bit() {
    for n in lengths() {
        for row in rows(n) {
            let expected: Vec<u32> = four_passes(&row).into_iter().map(f32::to_bits).collect();
            for surplus in [0, 1, 9] {
                let (answer, bits) = called(&row, n + surplus);
                assert_eq!(answer, Ok(()));
                assert_eq!(bits[..n], expected, "{n} heights");
                assert!(untouched(&bits, n), "the surplus is touched");
            }
        }
    }
}

/// A sum with c × left + c × right would round otherwise: the rows tell the two apart.
#[test]
fn the_bracket_comes_first() {
    let apart = |row: &[u16]| {
        let (l, x, r) = (f32::from(row[0]), f32::from(row[1]), f32::from(row[2]));
        let c = f32::from_bits(FACTORS[0]);
        x + (c * l + c * r) != x + c * (l + r)
    };
    assert!(rows(3).iter().any(|row| apart(row)));
}

#[test]
fn one_height_stays_as_it_is() {
    for height in 0..=u16::MAX {
        let mut out = [0.5f32];
        assert_eq!(profile(&[height], &mut out), Ok(()));
        assert_eq!(out[0].to_bits(), f32::from(height).to_bits());
    }
}

#[test]
fn a_row_of_another_length_gives_2_and_nothing_is_changed() {
    for n in [0, MAX_WIDTH + 1, MAX_WIDTH + 2, 4_098, 70_000] {
        for len in [0, 1, n, n + 5] {
            let (answer, bits) = called(&vec![7; n], len);
            assert_eq!(answer, refusal(Call::Profile, 2), "{n} heights, an area of {len}");
            assert!(untouched(&bits, 0));
        }
    }
}

#[test]
fn an_area_too_short_gives_5_and_stays() {
    for n in (1..=70).chain([1_025, MAX_WIDTH]) {
        for len in (0..n.min(70)).chain([n - 1]) {
            let (answer, bits) = called(&vec![65_535; n], len);
            assert_eq!(answer, refusal(Call::Profile, 5), "{n} heights, an area of {len}");
            assert!(untouched(&bits, 0));
        }
    }
}
