//! A whole map as a ground file, and back.
use crate::{file_header, map_forward, reader_store_length, round, Call, Loader, LoaderWant, Question, Saver, Shape};
use std::fmt;

/// A map as the bytes of its ground file (docs/FORMAT.md); with a step above 1 (the 5/3, from the origin) a smaller one, rounded. [`Saver`] writes it in
/// pieces.
///
/// ```
/// use terrain::{pack, unpack, Shape};
///
/// # fn main() -> Result<(), Box<dyn std::error::Error>> {
/// let file = pack(&[0, 2, 1, 1], Shape::new(2, 2, 1), 1)?;
/// assert_eq!(unpack(&file)?.heights, [0, 2, 1, 1]);
/// # Ok(())
/// # }
/// ```
pub fn pack(heights: &[u16], shape: Shape, step: usize) -> Result<Vec<u8>, Question> {
    let mut saver = Saver::new(shape, step)?;
    if heights.len() / shape.width < shape.height {
        return Err(Question { call: Call::MapForward, number: 5 });
    }
    let n = shape.width * shape.height;
    let (mut plane, mut file, mut area) = (vec![0; n], Vec::new(), vec![0; 1 << 16]);
    map_forward(heights, shape, &mut plane, &mut vec![0; n])?;
    if step > 1 {
        round(&mut plane, shape, step)?;
    }
    while let bytes @ [_, ..] = saver.save(&plane, &mut area)? {
        file.extend_from_slice(bytes);
    }
    Ok(file)
}

/// A map, and the step by which its plane was rounded (1: not at all).
#[derive(Clone, Debug, PartialEq, Eq)]
pub struct Ground {
    pub shape: Shape,
    pub step: usize,
    pub heights: Vec<u16>,
}

/// Why bytes are no ground file.
#[derive(Clone, Copy, Debug, PartialEq, Eq)]
pub enum Unpacking {
    /// A call was turned away.
    Refused(Question),
    /// The file ends early.
    Short,
    /// There are bytes after the file's end; how many.
    Long(usize),
}

impl From<Question> for Unpacking {
    fn from(question: Question) -> Unpacking {
        Unpacking::Refused(question)
    }
}

impl fmt::Display for Unpacking {
    fn fmt(&self, f: &mut fmt::Formatter<'_>) -> fmt::Result {
        match self {
            Unpacking::Refused(question) => question.fmt(f),
            Unpacking::Short => write!(f, "the file ends early"),
            Unpacking::Long(more) => write!(f, "there are {more} bytes after the file's end"),
        }
    }
}

impl std::error::Error for Unpacking {}

/// The map of a whole ground file. [`Loader`] takes one in pieces.
pub fn unpack(file: &[u8]) -> Result<Ground, Unpacking> {
    let (shape, step) = file_header(file)?;
    let (mut store, mut row) = (vec![0; reader_store_length(shape)], vec![0; shape.width.div_ceil(2)]);
    let mut loader = Loader::new(shape, step, &mut store, &mut row)?;
    let (mut heights, mut line, mut rest) = (Vec::new(), vec![0; shape.width], file);
    loop {
        match loader.want()? {
            LoaderWant::Draw => heights.extend_from_slice(loader.draw(&mut line)?.unwrap_or(&[])),
            LoaderWant::Bytes if rest.is_empty() => return Err(Unpacking::Short),
            LoaderWant::Done if rest.is_empty() => return Ok(Ground { shape, step, heights }),
            LoaderWant::Done => return Err(Unpacking::Long(rest.len())),
            _ => rest = &rest[loader.take(rest)?..],
        }
    }
}
