//! A plane saved as a ground file, and the header of one.
use crate::{raw, Call, Question, Shape};

/// The bytes of a plane's ground file (docs/FORMAT.md), one area after the other. The plane stands in memory whole, and the same one is lent to
/// each call.
///
/// ```
/// use terrain::{Saver, Shape};
///
/// # fn main() -> Result<(), terrain::Question> {
/// let plane = [2, 1, 0, -2]; // of the rows (0, 2), (1, 1) at one level
/// let (mut saver, mut file, mut area) = (Saver::new(Shape::new(2, 2, 1), 1)?, Vec::new(), [0; 16]);
/// while let bytes @ [_, ..] = saver.save(&plane, &mut area)? {
///     file.extend_from_slice(bytes);
/// }
/// assert_eq!(file[24..], [3, 4, 2, 2, 0, 2, 3, 0xec, 0xae, 0xf3, 0x63]);
/// # Ok(())
/// # }
/// ```
#[derive(Clone, Copy, Debug, PartialEq, Eq, Hash)]
pub struct Saver {
    state: raw::SaverState,
}

impl Saver {
    /// One that has written nothing. `step` is 1 for a map's own plane, and q for a plane rounded by q ([`crate::round`]).
    pub fn new(shape: Shape, step: usize) -> Result<Self, Question> {
        let mut state = [0; 32];
        Question::of(Call::SaveSetUp, raw::save_set_up(&mut state, shape, step))?;
        Ok(Saver { state })
    }

    /// One that goes on from the numbers that [`Saver::state`] gave. Numbers that are no saver's are answered by question 1.
    pub fn resume(state: raw::SaverState) -> Self {
        Saver { state }
    }

    /// Its numbers, which are the whole saver.
    pub fn state(&self) -> raw::SaverState {
        self.state
    }

    /// The next bytes of the file, at the front of `out`, as many as it has room for; none where the file is complete.
    pub fn save<'a>(&mut self, plane: &[i32], out: &'a mut [u8]) -> Result<&'a [u8], Question> {
        let mut written = 0;
        Question::of(Call::Save, raw::save(&mut self.state, plane, out, &mut written))?;
        Ok(&out[..written])
    }
}

/// The shape and the step that the first 24 bytes of a ground file say; those after them are not read.
pub fn file_header(bytes: &[u8]) -> Result<(Shape, usize), Question> {
    let mut header = [0; 7];
    Question::of(Call::FileHeader, raw::file_header(bytes, &mut header))?;
    let [width, height, levels, x, y, filter, step] = header;
    Ok((Shape::new(width as usize, height as usize, levels as usize).at(x as u16, y as u16).by(filter as u32), step as usize))
}
