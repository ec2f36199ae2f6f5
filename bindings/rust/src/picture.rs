//! A picture in one fixed form, byte by byte.
use crate::{raw, Call, Question};

/// The header's bytes from place `from` on, at the front of `out`: how many were written.
pub fn picture_head(width: usize, height: usize, from: usize, out: &mut [u8]) -> Result<usize, Question> {
    let mut written = 0;
    Question::of(Call::Picture, raw::picture_head(width, height, from, out, &mut written))?;
    Ok(written)
}

/// The bytes of a row of heights from place `from` on, two a height, at the front of `out`: how many were written.
pub fn picture_row(heights: &[u16], from: usize, out: &mut [u8]) -> usize {
    raw::picture_row(heights, from, out)
}
