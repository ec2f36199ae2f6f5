//! The whole map at once, and the band rows of its plane.
use crate::{raw, Band, Call, Question};
use std::ops::Range;

/// A map on its grid: width, height and levels, the coordinates of its first column and its first row, and the number of its filter. A map that
/// is no tile of a larger one starts at 0, and the 5/3 has the number 0: [`Shape::new`]. More fields may come, in which 0 means what they were
/// not there for.
#[repr(C)]
#[derive(Clone, Copy, Debug, Default, PartialEq, Eq, Hash)]
pub struct Shape {
    pub width: usize,
    pub height: usize,
    pub levels: usize,
    pub x: u16,
    pub y: u16,
    /// [`crate::FIVE_THREE`] or [`crate::NINE_SEVEN`]; any other gives 18.
    pub filter: u32,
}

impl Shape {
    /// A map of that size that starts at 0, by the 5/3.
    pub fn new(width: usize, height: usize, levels: usize) -> Shape {
        Shape { width, height, levels, ..Shape::default() }
    }

    /// The same map with its first column and its first row at these coordinates.
    pub fn at(self, x: u16, y: u16) -> Shape {
        Shape { x, y, ..self }
    }

    /// The same map by the filter of that number.
    pub fn by(self, filter: u32) -> Shape {
        Shape { filter, ..self }
    }
}

/// The plane of a map's coefficients. Each area has at least width times height numbers, and those of `work` are zero afterwards.
pub fn map_forward(heights: &[u16], s: Shape, plane: &mut [i32], work: &mut [i32]) -> Result<(), Question> {
    Question::of(Call::MapForward, raw::map_forward(heights, s, plane, work))
}

/// A rectangle of a map: its first column and row, counted from 0, its columns and its rows.
#[repr(C)]
#[derive(Clone, Copy, Debug, Default, PartialEq, Eq, Hash)]
pub struct Rectangle {
    pub left: usize,
    pub top: usize,
    pub width: usize,
    pub height: usize,
}

/// The plane of a map by the 5/3, from the origin, mended after a stroke in a rectangle; the heights are the new ones. Of `s` the width, the
/// height and the levels are read. What is out of the rectangle's reach stays; `work` is zero afterwards.
pub fn map_mend(
    heights: &[u16],
    s: Shape,
    rectangle: Rectangle,
    plane: &mut [i32],
    work: &mut [i32],
) -> Result<(), Question> {
    Question::of(Call::MapMend, raw::map_mend(heights, s.width, s.height, s.levels, rectangle, plane, work))
}

/// The plane of a map by the 5/3, from the origin, with each HL, LH and HH value rounded toward zero to the nearest multiple of `step`, 1 to 64.
/// Of `s` the width, the height and the levels are read.
pub fn round(plane: &mut [i32], s: Shape, step: usize) -> Result<(), Question> {
    Question::of(Call::Round, raw::round(plane, s.width, s.height, s.levels, step))
}

/// By how much a height can be off that a tolerant reader ([`crate::Reader::tolerant`]) rebuilds from the plane of a map of so many levels, rounded by
/// `step`.
pub fn error_bound(levels: usize, step: usize) -> Result<usize, Question> {
    let mut bound = 0;
    Question::of(Call::ErrorBound, raw::error_bound(levels, step, &mut bound)).map(|()| bound)
}

/// The one map that has this plane, or 7 or 14: none has it. 14 zeroes `heights` and `work`.
pub fn map_backward(plane: &[i32], s: Shape, heights: &mut [u16], work: &mut [i32]) -> Result<(), Question> {
    Question::of(Call::MapBackward, raw::map_backward(plane, s, heights, work))
}

/// Where a band row stands in a plane of `plane_len` numbers.
pub fn band_row(plane_len: usize, s: Shape, level: usize, band: Band, row: usize) -> Result<Range<usize>, Question> {
    let (mut start, mut length) = (0, 0);
    let answer = raw::band_row(plane_len, s, level, band as usize, row, &mut start, &mut length);
    Question::of(Call::View, answer)?;
    Ok(start..start + length)
}

/// A band row as a stretch of its plane.
pub fn view(plane: &[i32], s: Shape, level: usize, band: Band, row: usize) -> Result<&[i32], Question> {
    Ok(&plane[band_row(plane.len(), s, level, band, row)?])
}
