//! Heights in, band rows out.
use crate::raw::{self, State};
use crate::{BandRow, Call, Question, Shape};

/// What a call for many rows did: the heights it took, the band rows it put and the numbers that these have.
#[derive(Clone, Copy, Debug, PartialEq, Eq, Hash)]
pub struct Run {
    pub taken: usize,
    pub rows: usize,
    pub numbers: usize,
}

impl Run {
    /// The rows that it put, in their order; `names` is the area that was lent to it.
    pub fn names(self, names: &[u64]) -> impl Iterator<Item = BandRow> + '_ {
        names.chunks_exact(4).take(self.rows).map(|n| BandRow::of([n[0], n[1], n[2], n[3]]))
    }
}

/// A writer and the line store lent to it.
#[derive(Debug)]
pub struct Writer<'s> {
    state: State,
    store: &'s mut [i32],
}

impl<'s> Writer<'s> {
    /// A writer of maps of that shape, whose height it does not read: the map has the rows that are offered before the finish. The store has at
    /// least [`crate::store_length`] numbers; what stood in them is lost.
    pub fn new(shape: Shape, store: &'s mut [i32]) -> Result<Self, Question> {
        let mut state = [0; 16];
        Question::of(Call::WriterSetUp, raw::writer_set_up(&mut state, shape, store))?;
        Ok(Writer { state, store })
    }

    /// A writer that goes on from a state and the store that belongs to it, as [`Writer::state`] and [`Writer::store`] gave them. Numbers
    /// that are no writer's state are answered by question 1 in every call.
    pub fn resume(state: State, store: &'s mut [i32]) -> Self {
        Writer { state, store }
    }

    /// The writer's numbers: with what stands in its store they are the whole writer.
    pub fn state(&self) -> State {
        self.state
    }

    /// The line store as it stands.
    pub fn store(&self) -> &[i32] {
        self.store
    }

    /// Takes heights, row after row, until a band row waits, the row limit is reached or the run is used up: how many were taken. A run may
    /// begin and end anywhere in a row. While band rows wait, one row more is taken, in one offer or several, and kept apart until the draw
    /// after which none waits: 0 once it is complete.
    pub fn offer(&mut self, run: &[u16]) -> Result<usize, Question> {
        let mut taken = 0;
        Question::of(Call::Offer, raw::writer_offer(&mut self.state, self.store, run, &mut taken))?;
        Ok(taken)
    }

    /// The next band row that waits and its values, which stand at the front of `out`; `None`: nothing waits.
    pub fn draw<'o>(&mut self, out: &'o mut [i32]) -> Result<Option<(BandRow, &'o [i32])>, Question> {
        let mut row = [0; 4];
        Question::of(Call::WriterDraw, raw::writer_draw(&mut self.state, self.store, out, &mut row))?;
        let row = BandRow::of(row);
        Ok((row.level > 0).then(|| (row, &out[..row.length])))
    }

    /// Many rows at once: takes heights and puts the band rows that they make into `out`, one after the other, each with the four numbers of its
    /// name into `names` ([`Run::names`] reads them), until the heights are used up or the next row or its name has no room. It does what single
    /// offers and draws do; where nothing can be done it is turned away, and nothing is changed.
    pub fn run(&mut self, heights: &[u16], out: &mut [i32], names: &mut [u64]) -> Result<Run, Question> {
        let mut counts = [0; 3];
        Question::of(Call::WriterRun, raw::writer_run(&mut self.state, self.store, heights, out, names, &mut counts))?;
        let [taken, rows, numbers] = counts.map(|n| n as usize);
        Ok(Run { taken, rows, numbers })
    }

    /// The band row that the next draw gives, so that its own place in a plane or file can be lent to that draw; `None`: nothing waits.
    pub fn waits(&self) -> Result<Option<BandRow>, Question> {
        let mut row = [0; 4];
        Question::of(Call::WriterWaits, raw::writer_waits(&self.state, &mut row))?;
        let row = BandRow::of(row);
        Ok((row.level > 0).then_some(row))
    }

    /// The map ends here: the rows that this makes wait to be drawn.
    pub fn finish(&mut self) -> Result<(), Question> {
        Question::of(Call::Finish, raw::writer_finish(&mut self.state, self.store))
    }
}
