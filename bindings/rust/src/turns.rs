//! Fair turns at one disk for up to sixteen readers.
use crate::{raw, Call, Question, READERS};

/// Which of up to sixteen readers is served next: the first marked one in circular order after the one served last, from reader 0 on at
/// first. It knows a reader by its number alone. One that stays marked is served within sixteen turns, whatever the others do.
///
/// ```
/// # fn main() -> Result<(), terrain::Question> {
/// let mut turns = terrain::Turns::new();
/// turns.mark(3)?;
/// turns.mark(9)?;
/// assert_eq!([turns.give()?, turns.give()?, turns.give()?], [Some(3), Some(9), Some(3)]);
/// # Ok(())
/// # }
/// ```
#[derive(Clone, Copy, Debug, PartialEq, Eq, Hash)]
pub struct Turns {
    state: [u64; 4],
}

impl Default for Turns {
    fn default() -> Self {
        Turns::new()
    }
}

impl Turns {
    /// A fresh turn-giver: no reader is marked.
    pub fn new() -> Self {
        let mut state = [0; 4];
        assert_eq!(raw::turns_set_up(&mut state), 0, "set-up asks nothing");
        Turns { state }
    }

    /// One that goes on from the numbers that [`Turns::state`] gave. Numbers that are no turn-giver's are answered by question 1 in every
    /// call.
    pub fn resume(state: [u64; 4]) -> Self {
        Turns { state }
    }

    /// Its numbers, which are the whole turn-giver.
    pub fn state(&self) -> [u64; 4] {
        self.state
    }

    /// The reader wants a band row, until it is cleared.
    pub fn mark(&mut self, reader: usize) -> Result<(), Question> {
        Question::of(Call::Mark, raw::turns_mark(&mut self.state, reader))
    }

    /// The reader wants none.
    pub fn clear(&mut self, reader: usize) -> Result<(), Question> {
        Question::of(Call::Clear, raw::turns_clear(&mut self.state, reader))
    }

    /// The reader whose turn it is; `None` where nobody is marked, and then the order stays. No mark is cleared.
    pub fn give(&mut self) -> Result<Option<usize>, Question> {
        let mut reader = READERS;
        Question::of(Call::Turn, raw::turns_give(&mut self.state, &mut reader))?;
        Ok((reader < READERS).then_some(reader))
    }
}
