//! How near a cell of the level-1 LL is to changing.
use crate::{raw, Call, Question};

/// A change of one height of a map: where it is, and what it becomes.
#[derive(Clone, Copy, Debug, PartialEq, Eq, Hash)]
pub struct Change {
    pub row: usize,
    pub column: usize,
    pub height: u16,
}

/// The nearest change of a map of `width` columns and `height` rows that alters cell (`row`, `column`) of its level-1 LL (5/3, origin 0): the
/// smallest difference, at most 4, a raise before a cut, then the upper row, then the left column.
pub fn nearest_change(heights: &[u16], width: usize, height: usize, row: usize, column: usize) -> Result<Change, Question> {
    let mut change = [0; 3];
    Question::of(Call::NearestChange, raw::nearest_change(heights, width, height, row, column, &mut change))?;
    let [row, column, height] = change;
    Ok(Change { row: row as usize, column: column as usize, height: height as u16 })
}
