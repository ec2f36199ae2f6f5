//! The calls of `terrain::Writer` on a state and a store that the test keeps, so that it can look at both between two calls, or lie. Where a
//! call is turned away, or gives Nothing, it is made once more, raw: state and out-parameters stay.
use crate::order::BandRow;
use crate::{numbered, UNSET};
use terrain::raw::{self, State};
use terrain::{Call, Shape, Writer};

pub fn set_up(state: &mut State, s: Shape, store: &mut [i32]) -> Result<(), u32> {
    let made = numbered(Writer::new(s, store).map(|w| w.state()), Call::WriterSetUp);
    // and over whatever stands in the array
    let before = *state;
    let number = raw::writer_set_up(state, s, store);
    assert_eq!(number, made.err().unwrap_or(0));
    assert_eq!(*state, made.unwrap_or(before), "the whole array is set, or stays");
    made.map(|_| ())
}

pub fn offer(state: &mut State, store: &mut [i32], run: &[u16]) -> Result<usize, u32> {
    let before = *state;
    let mut writer = Writer::resume(before, store);
    let answer = numbered(writer.offer(run), Call::Offer);
    *state = writer.state();
    if let Err(number) = answer {
        let mut taken = UNSET;
        assert_eq!(*state, before, "{number}: a refusal changes nothing");
        assert_eq!(raw::writer_offer(state, store, run, &mut taken), number);
        assert_eq!((*state, taken), (before, UNSET), "{number}: a refusal changes nothing");
    }
    answer
}

/// A look at what waits. Where it is turned away it is made once more, raw: the out-parameter stays.
pub fn waits(state: &State) -> Result<Option<BandRow>, u32> {
    let answer = numbered(Writer::resume(*state, &mut []).waits(), Call::WriterWaits);
    if let Err(number) = answer {
        let mut row = [UNSET as u64; 4];
        assert_eq!(raw::writer_waits(state, &mut row), number);
        assert_eq!(row, [UNSET as u64; 4], "{number}: a refusal changes nothing");
    }
    answer.map(|row| row.map(|r| BandRow { level: r.level, band: r.band as usize, row: r.row, length: r.length }))
}

/// A draw, and the look before it, which must have said what the draw gives.
pub fn draw(state: &mut State, store: &mut [i32], out: &mut [i32]) -> Result<Option<BandRow>, u32> {
    let (before, place, room) = (*state, out.as_ptr(), out.len());
    let ahead = waits(state);
    let mut writer = Writer::resume(before, store);
    let answer = numbered(writer.draw(out), Call::WriterDraw).map(|drawn| {
        drawn.map(|(r, values)| {
            assert!(values.as_ptr() == place && values.len() == r.length && r.length <= room, "the front of the output area");
            BandRow { level: r.level, band: r.band as usize, row: r.row, length: r.length }
        })
    });
    *state = writer.state();
    match answer {
        Ok(row) => assert_eq!(ahead, Ok(row), "the look says what the draw gives"),
        Err(1) => assert_eq!(ahead, Err(1)),
        Err(12) => assert!(ahead.is_ok_and(|row| row.is_some_and(|r| r.length > room))),
        Err(_) => {}
    }
    if !matches!(answer, Ok(Some(_))) {
        let mut row = [UNSET as u64; 4];
        assert_eq!(*state, before, "neither a refusal nor Nothing changes anything");
        assert_eq!(raw::writer_draw(state, store, out, &mut row), answer.err().unwrap_or(0));
        assert_eq!(*state, before, "neither a refusal nor Nothing changes anything");
        assert_eq!(row, if answer.is_err() { [UNSET as u64; 4] } else { [0; 4] }, "Nothing is all zeros");
    }
    answer
}

pub fn finish(state: &mut State, store: &mut [i32]) -> Result<(), u32> {
    let before = *state;
    let mut writer = Writer::resume(before, store);
    let answer = numbered(writer.finish(), Call::Finish);
    *state = writer.state();
    assert!(answer.is_ok() || *state == before, "a refusal changes nothing");
    answer
}
