//! The calls of `terrain::Reader`, as `writer` has those of the writer; 14 alone changes the state of a call turned away.
use crate::order::BandRow;
use crate::{numbered, UNSET};
use terrain::raw::{self, State};
use terrain::{Call, Reader, Shape};

#[derive(Clone, Copy, Debug, PartialEq, Eq)]
pub enum Want {
    Row(BandRow),
    Draw,
    Done,
    Ended,
}

pub fn set_up(state: &mut State, s: Shape, store: &mut [i32]) -> Result<(), u32> {
    let made = numbered(Reader::new(s, store).map(|r| r.state()), Call::ReaderSetUp);
    // and over whatever stands in the array
    let before = *state;
    let number = raw::reader_set_up(state, s, store);
    assert_eq!(number, made.err().unwrap_or(0));
    assert_eq!(*state, made.unwrap_or(before), "the whole array is set, or stays");
    made.map(|_| ())
}

/// A reader that stops at a level.
pub fn set_up_at(state: &mut State, s: Shape, stop: usize, store: &mut [i32]) -> Result<(), u32> {
    let made = numbered(Reader::stopping_at(s, stop, store).map(|r| r.state()), Call::ReaderSetUp);
    let before = *state;
    let number = raw::reader_set_up_at(state, s, stop, store);
    assert_eq!(number, made.err().unwrap_or(0));
    assert_eq!(*state, made.unwrap_or(before), "the whole array is set, or stays");
    made.map(|_| ())
}

/// A tolerant reader; the shape's origin and filter are not read.
pub fn tolerant_set_up(state: &mut State, s: Shape, store: &mut [i32]) -> Result<(), u32> {
    let made = numbered(Reader::tolerant(s, store).map(|r| r.state()), Call::ReaderSetUp);
    let before = *state;
    let number = raw::tolerant_set_up(state, s.width, s.height, s.levels, store);
    assert_eq!(number, made.err().unwrap_or(0));
    assert_eq!(*state, made.unwrap_or(before), "the whole array is set, or stays");
    made.map(|_| ())
}

/// What the wrapper says, and the raw numbers say the same.
pub fn want(state: &State) -> Result<Want, u32> {
    let answer = numbered(Reader::resume(*state, &mut []).want(), Call::Want).map(|want| match want {
        terrain::Want::Row(r) => Want::Row(BandRow { level: r.level, band: r.band as usize, row: r.row, length: r.length }),
        terrain::Want::Draw => Want::Draw,
        terrain::Want::Done => Want::Done,
        terrain::Want::Ended => Want::Ended,
    });
    let mut numbers = [UNSET as u64; 5];
    assert_eq!(raw::reader_want(state, &mut numbers), answer.err().unwrap_or(0));
    let expected = match answer {
        Ok(Want::Row(r)) => [0, r.level, r.band, r.row, r.length],
        Ok(Want::Draw) => [1, 0, 0, 0, 0],
        Ok(Want::Done) => [2, 0, 0, 0, 0],
        Ok(Want::Ended) => [3, 0, 0, 0, 0],
        Err(_) => [UNSET; 5],
    };
    assert_eq!(numbers, expected.map(|n| n as u64), "no other number is set");
    answer
}

pub fn feed(state: &mut State, store: &mut [i32], run: &[i32]) -> Result<(), u32> {
    let before = *state;
    let mut reader = Reader::resume(before, store);
    let answer = numbered(reader.feed(run), Call::Feed);
    *state = reader.state();
    assert!(matches!(answer, Ok(()) | Err(14)) || *state == before, "a refusal changes nothing");
    answer
}

/// How many heights were drawn: 0 is Nothing.
pub fn draw(state: &mut State, store: &mut [i32], out: &mut [u16]) -> Result<usize, u32> {
    let (before, mut copy, place) = (*state, store.to_vec(), out.as_ptr());
    let mut reader = Reader::resume(before, store);
    let answer = numbered(reader.draw(out), Call::ReaderDraw).map(|drawn| {
        drawn.map_or(0, |heights| {
            assert!(heights.as_ptr() == place && !heights.is_empty(), "the front of the output area");
            heights.len()
        })
    });
    *state = reader.state();
    if !matches!(answer, Ok(1..)) {
        // the same call on what stood before it
        let (mut again, mut drawn) = (before, UNSET);
        assert_eq!(raw::reader_draw(&mut again, &mut copy, out, &mut drawn), answer.err().unwrap_or(0));
        assert_eq!(drawn, if answer.is_err() { UNSET } else { 0 }, "a refusal sets no number");
        assert!(again == *state && copy == store);
        assert!(answer == Err(14) || *state == before, "neither a refusal nor Nothing changes anything");
    }
    answer
}
