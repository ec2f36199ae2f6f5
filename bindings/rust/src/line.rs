//! The lifting of one line, by either filter.
use crate::{raw, Call, Question};

/// The values by the 5/3 of a line that starts at a coordinate, of which the parity counts: the low ones, then the high ones, at the front of
/// `out`.
pub fn line_forward(line: &[i32], start: usize, out: &mut [i32]) -> Result<(), Question> {
    Question::of(Call::Line, raw::line_forward(line, start, out))
}

/// Low values, then high values, back to their line, at the front of `out`. 14: a value alone at an odd coordinate that is odd is no line's.
pub fn line_backward(coefficients: &[i32], start: usize, out: &mut [i32]) -> Result<(), Question> {
    Question::of(Call::Line, raw::line_backward(coefficients, start, out))
}

/// [`line_forward`] by the integer 9/7.
pub fn ccsds_line_forward(line: &[i32], start: usize, out: &mut [i32]) -> Result<(), Question> {
    Question::of(Call::Line, raw::ccsds_line_forward(line, start, out))
}

/// [`line_backward`] by the integer 9/7.
pub fn ccsds_line_backward(coefficients: &[i32], start: usize, out: &mut [i32]) -> Result<(), Question> {
    Question::of(Call::Line, raw::ccsds_line_backward(coefficients, start, out))
}
