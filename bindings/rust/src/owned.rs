//! A writer and a reader that own what they work in: the state, the line store and the row last drawn.
use crate::raw::State;
use crate::{reader_store_length, store_length, BandRow, Question, Reader, Shape, Want, Writer, MAX_WIDTH};

/// A [`Writer`] that owns its line store, and the area that its rows are drawn into. A clone goes on by itself.
///
/// ```
/// # fn main() -> Result<(), terrain::Question> {
/// let mut writer = terrain::OwnedWriter::new(terrain::Shape::new(1, 4, 2))?;
/// let mut heights: &[u16] = &[1, 4, 2, 7];
/// let mut finished = false;
/// while !finished {
///     if heights.is_empty() {
///         writer.finish()?;
///         finished = true;
///     } else {
///         heights = &heights[writer.offer(heights)?..];
///     }
///     while let Some((row, values)) = writer.draw()? {
///         println!("{row:?}: {values:?}");
///     }
/// }
/// # Ok(())
/// # }
/// ```
#[derive(Clone, Debug)]
pub struct OwnedWriter {
    state: State,
    store: Vec<i32>,
    row: Vec<i32>,
}

impl OwnedWriter {
    /// A writer of maps of that shape, whose height it does not read.
    pub fn new(shape: Shape) -> Result<Self, Question> {
        let mut store = vec![0; store_length(shape)];
        let state = Writer::new(shape, &mut store)?.state();
        Ok(OwnedWriter { state, store, row: vec![0; shape.width.div_ceil(2)] })
    }

    /// As [`Writer::resume`].
    pub fn resume(state: State, store: Vec<i32>) -> Self {
        OwnedWriter { state, store, row: vec![0; MAX_WIDTH.div_ceil(2)] }
    }

    /// As [`Writer::state`].
    pub fn state(&self) -> State {
        self.state
    }

    /// As [`Writer::store`].
    pub fn store(&self) -> &[i32] {
        &self.store
    }

    /// Any call of a [`Writer`] on this one.
    pub fn with<T>(&mut self, call: impl FnOnce(&mut Writer) -> T) -> T {
        let mut writer = Writer::resume(self.state, &mut self.store);
        let answer = call(&mut writer);
        self.state = writer.state();
        answer
    }

    /// As [`Writer::offer`].
    pub fn offer(&mut self, run: &[u16]) -> Result<usize, Question> {
        self.with(|writer| writer.offer(run))
    }

    /// As [`Writer::draw`]; the values stand until the next draw.
    pub fn draw(&mut self) -> Result<Option<(BandRow, &[i32])>, Question> {
        let mut writer = Writer::resume(self.state, &mut self.store);
        let drawn = writer.draw(&mut self.row);
        self.state = writer.state();
        drawn
    }

    /// As [`Writer::finish`].
    pub fn finish(&mut self) -> Result<(), Question> {
        self.with(|writer| writer.finish())
    }
}

/// A [`Reader`] that owns its line store, and the area that its height rows are drawn into. A clone goes on by itself.
#[derive(Clone, Debug)]
pub struct OwnedReader {
    state: State,
    store: Vec<i32>,
    row: Vec<u16>,
}

impl OwnedReader {
    /// A reader of a map of that shape.
    pub fn new(shape: Shape) -> Result<Self, Question> {
        let mut store = vec![0; reader_store_length(shape)];
        let state = Reader::new(shape, &mut store)?.state();
        Ok(OwnedReader { state, store, row: vec![0; shape.width] })
    }

    /// As [`Reader::stopping_at`].
    pub fn stopping_at(shape: Shape, stop: usize) -> Result<Self, Question> {
        let mut store = vec![0; store_length(shape)];
        let state = Reader::stopping_at(shape, stop, &mut store)?.state();
        Ok(OwnedReader { state, store, row: vec![0; shape.width] })
    }

    /// As [`Reader::tolerant`].
    pub fn tolerant(shape: Shape) -> Result<Self, Question> {
        let mut store = vec![0; reader_store_length(Shape::new(shape.width, shape.height, shape.levels))];
        let state = Reader::tolerant(shape, &mut store)?.state();
        Ok(OwnedReader { state, store, row: vec![0; shape.width] })
    }

    /// As [`Reader::resume`].
    pub fn resume(state: State, store: Vec<i32>) -> Self {
        OwnedReader { state, store, row: vec![0; MAX_WIDTH] }
    }

    /// As [`Reader::state`].
    pub fn state(&self) -> State {
        self.state
    }

    /// As [`Reader::store`].
    pub fn store(&self) -> &[i32] {
        &self.store
    }

    /// Any call of a [`Reader`] on this one.
    pub fn with<T>(&mut self, call: impl FnOnce(&mut Reader) -> T) -> T {
        let mut reader = Reader::resume(self.state, &mut self.store);
        let answer = call(&mut reader);
        self.state = reader.state();
        answer
    }

    /// As [`Reader::want`].
    pub fn want(&self) -> Result<Want, Question> {
        // it asks the state alone
        Reader::resume(self.state, &mut []).want()
    }

    /// As [`Reader::feed`].
    pub fn feed(&mut self, run: &[i32]) -> Result<(), Question> {
        self.with(|reader| reader.feed(run))
    }

    /// As [`Reader::draw`]; the heights stand until the next draw.
    pub fn draw(&mut self) -> Result<Option<&[u16]>, Question> {
        let mut reader = Reader::resume(self.state, &mut self.store);
        let drawn = reader.draw(&mut self.row);
        self.state = reader.state();
        drawn
    }
}
