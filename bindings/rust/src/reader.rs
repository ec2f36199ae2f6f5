//! Band rows in, heights out.
use crate::raw::{self, State};
use crate::{BandRow, Call, Question, Shape};

/// What a reader wants next.
#[derive(Clone, Copy, Debug, PartialEq, Eq, Hash)]
pub enum Want {
    /// This band row, to be fed.
    Row(BandRow),
    /// A height row can be drawn.
    Draw,
    /// All height rows are drawn.
    Done,
    /// Question 14 ended the reader: no map has the rows that were fed. A tolerant reader never says so.
    Ended,
}

/// What a call for many rows did: the numbers it used and the height rows it drew.
#[derive(Clone, Copy, Debug, PartialEq, Eq, Hash)]
pub struct ReaderRun {
    pub used: usize,
    pub rows: usize,
}

/// A reader and the line store lent to it.
#[derive(Debug)]
pub struct Reader<'s> {
    state: State,
    store: &'s mut [i32],
}

impl<'s> Reader<'s> {
    /// A reader of a map of that shape. The store has at least [`crate::reader_store_length`] numbers; what stood in them is lost.
    pub fn new(shape: Shape, store: &'s mut [i32]) -> Result<Self, Question> {
        let mut state = [0; 16];
        Question::of(Call::ReaderSetUp, raw::reader_set_up(&mut state, shape, store))?;
        Ok(Reader { state, store })
    }

    /// A reader of distant ground, which stops at a level, 1 to the map's levels: it draws the rows of that level's LL, as long as
    /// [`crate::level_size`] says, each value limited to 0 to 65,535, and never wants a row of that level or of a finer one, but LL at the last
    /// level. The store is as long as for the whole map.
    pub fn stopping_at(shape: Shape, stop: usize, store: &'s mut [i32]) -> Result<Self, Question> {
        let mut state = [0; 16];
        Question::of(Call::ReaderSetUp, raw::reader_set_up_at(&mut state, shape, stop, store))?;
        Ok(Reader { state, store })
    }

    /// A tolerant reader, for the plane of a map by the 5/3, from the origin, that was rounded ([`crate::round`]): each value that it rebuilds is
    /// limited to its level's range, a height to 0 to 65,535, before further use, so it gives neither 9 nor 14. No height is off by more than
    /// [`crate::error_bound`] says. Of `shape` the width, the height and the levels are read.
    pub fn tolerant(shape: Shape, store: &'s mut [i32]) -> Result<Self, Question> {
        let (mut state, Shape { width, height, levels, .. }) = ([0; 16], shape);
        Question::of(Call::ReaderSetUp, raw::tolerant_set_up(&mut state, width, height, levels, store))?;
        Ok(Reader { state, store })
    }

    /// A reader that goes on from a state and the store that belongs to it, as [`Reader::state`] and [`Reader::store`] gave them. Numbers
    /// that are no reader's state are answered by question 1 in every call.
    pub fn resume(state: State, store: &'s mut [i32]) -> Self {
        Reader { state, store }
    }

    /// The reader's numbers: with what stands in its store they are the whole reader.
    pub fn state(&self) -> State {
        self.state
    }

    /// The line store as it stands.
    pub fn store(&self) -> &[i32] {
        self.store
    }

    /// What comes next. It depends on the map's size and the calls that passed, never on a coefficient, until 14 ends the reader.
    pub fn want(&self) -> Result<Want, Question> {
        let mut want = [0; 5];
        Question::of(Call::Want, raw::reader_want(&self.state, &mut want))?;
        let [kind, level, band, row, length] = want;
        Ok(match kind {
            0 => Want::Row(BandRow::of([level, band, row, length])),
            1 => Want::Draw,
            2 => Want::Done,
            _ => Want::Ended,
        })
    }

    /// The band row that is wanted, whole. 7 leaves the reader as it was; 14 ends it.
    pub fn feed(&mut self, run: &[i32]) -> Result<(), Question> {
        Question::of(Call::Feed, raw::reader_feed(&mut self.state, self.store, run))
    }

    /// The next height row, which stands at the front of `out`; `None`: none can be drawn now.
    pub fn draw<'o>(&mut self, out: &'o mut [u16]) -> Result<Option<&'o [u16]>, Question> {
        let mut drawn = 0;
        Question::of(Call::ReaderDraw, raw::reader_draw(&mut self.state, self.store, out, &mut drawn))?;
        Ok((drawn > 0).then(|| &out[..drawn]))
    }

    /// Many rows at once: feeds the whole band rows that `run` has, in the order in which they are wanted, and draws height rows into `out`, one after
    /// the other, until `run` has no whole row more, the next row has no room, or all are drawn. It does what single feeds and draws do; where nothing
    /// can be done although there are numbers or a row to draw it is turned away, and nothing is changed. 14 ends the reader, and what this run drew before
    /// it is not counted ([`raw::reader_run`] tells it).
    pub fn run(&mut self, run: &[i32], out: &mut [u16]) -> Result<ReaderRun, Question> {
        let mut counts = [0; 2];
        Question::of(Call::ReaderRun, raw::reader_run(&mut self.state, self.store, run, out, &mut counts))?;
        let [used, rows] = counts.map(|n| n as usize);
        Ok(ReaderRun { used, rows })
    }
}
