//! Areas with guards around them, and lines of many kinds to fill them with.
use crate::random::Random;

const GUARD: usize = 16;

/// A number that an area holds: a mark for the guards, and values no two neighbours of which are equal, so that a store in a wrong place
/// is seen.
pub trait Element: Copy + PartialEq {
    const MARK: Self;
    fn unset(i: usize) -> Self;
}

impl Element for i32 {
    const MARK: i32 = 0x5eed_1e55;
    fn unset(i: usize) -> i32 {
        -1_234_567 - 3 * i as i32
    }
}

impl Element for u16 {
    const MARK: u16 = 0x5eed;
    fn unset(i: usize) -> u16 {
        54_321u16.wrapping_sub((i as u16).wrapping_mul(3))
    }
}

impl Element for u8 {
    const MARK: u8 = 0x5e;
    fn unset(i: usize) -> u8 {
        0xc3u8.wrapping_sub((i as u8).wrapping_mul(3))
    }
}

/// An area that is lent, with marks before and after it that no call may touch.
pub struct Guarded<T = i32> {
    all: Vec<T>,
}

impl<T: Element> Guarded<T> {
    pub fn new(content: &[T]) -> Self {
        let mut all = vec![T::MARK; GUARD];
        all.extend_from_slice(content);
        all.extend(std::iter::repeat(T::MARK).take(GUARD));
        Guarded { all }
    }

    /// An area of `len` numbers that no call has written.
    pub fn unset(len: usize) -> Self {
        Guarded::new(&(0..len).map(T::unset).collect::<Vec<_>>())
    }

    pub fn lent(&mut self) -> &mut [T] {
        let end = self.all.len() - GUARD;
        &mut self.all[GUARD..end]
    }

    /// What stands in the area, once the marks around it have been looked at.
    pub fn content(&self) -> &[T] {
        let end = self.all.len() - GUARD;
        assert!(self.all[..GUARD].iter().all(|&m| m == T::MARK), "written before the area");
        assert!(self.all[end..].iter().all(|&m| m == T::MARK), "written after the area");
        &self.all[GUARD..end]
    }

    /// Whether the places from `from` on are as [`Guarded::unset`] made them.
    pub fn is_unset_from(&self, from: usize) -> bool {
        (from..self.content().len()).all(|i| self.content()[i] == T::unset(i))
    }
}

/// What [`Guarded::unset`] has at place `i` of an `i32` area.
pub fn unset(i: usize) -> i32 {
    i32::unset(i)
}

/// Lines of `n` numbers: constants, the largest steps that heights and words can make, slopes, and random ones.
pub fn lines(n: usize) -> Vec<Vec<i32>> {
    let mut heights = Random::new(n as u64);
    let mut words = Random::new(n as u64 + 1_000_000);
    let mut made: Vec<Vec<i32>> = [0, 65_535, i32::MIN, i32::MAX].iter().map(|&v| vec![v; n]).collect();
    for (a, b) in [(0, 65_535), (65_535, 0), (i32::MIN, i32::MAX), (i32::MAX, i32::MIN), (i32::MAX, i32::MAX - 1)] {
        made.push((0..n).map(|i| if i % 2 == 0 { a } else { b }).collect());
    }
    made.push((0..n).map(|i| i as i32).collect());
    made.push((0..n).map(|i| -7 * i as i32).collect());
    made.push((0..n).map(|_| heights.below(65_536) as i32).collect());
    made.push((0..n).map(|_| words.word()).collect());
    made.push((0..n).map(|_| [i32::MIN, -1, 0, i32::MAX][words.below(4)]).collect());
    made
}

/// Every length from 0 to 70, and longer ones about the powers of two and the widths of maps.
pub fn lengths() -> Vec<usize> {
    let mut all: Vec<usize> = (0..=70).collect();
    all.extend([127, 128, 129, 255, 256, 257, 1_000, 1_025, 2_047, 2_048, 2_049, 2_050, 4_095, 4_096, 4_097, 4_999, 5_000]);
    all
}
