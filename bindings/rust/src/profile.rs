//! The smooth profile of one row.
use crate::{raw, Call, Question};

/// The row's profile at the front of `out`: the 9/7 lifting of T.800 without its scaling, in 32-bit floats, in the samples' own order. The
/// floats are the same bits on every machine, in round-to-nearest, the mode in which a thread starts.
pub fn profile(row: &[u16], out: &mut [f32]) -> Result<(), Question> {
    Question::of(Call::Profile, raw::profile(row, out))
}
