//! Height maps to wavelet coefficients and back, exactly: safe Rust over the proved library (`include/terrain.h`).
//!
//! [`Writer`], [`Reader`], [`Saver`] and [`Loader`] allocate nothing: the caller lends slices. [`OwnedWriter`] and [`OwnedReader`] own what they work in;
//! [`pack`] and [`unpack`] make a map a ground file and back.
//!
//! Every call is a `Result`; its error is the [`Question`] that turned the call away, and it prints a sentence. A call turned away has
//! changed nothing that was lent to it, but for question 14, which ends a [`Reader`].
//!
//! ```
//! use terrain::{store_length, Reader, Shape, Want, Writer};
//!
//! # fn main() -> Result<(), terrain::Question> {
//! let shape = Shape::new(1, 4, 2);
//! let mut store = vec![0; store_length(shape)];
//! let mut line = vec![0; shape.width];
//! let mut rows = Vec::new();
//!
//! let mut writer = Writer::new(shape, &mut store)?;
//! let mut heights: &[u16] = &[1, 4, 2, 7];
//! while !heights.is_empty() {
//!     let taken = writer.offer(heights)?;
//!     heights = &heights[taken..];
//!     while let Some((row, values)) = writer.draw(&mut line)? {
//!         rows.push((row, values.to_vec()));
//!     }
//! }
//! writer.finish()?;
//! while let Some((row, values)) = writer.draw(&mut line)? {
//!     rows.push((row, values.to_vec()));
//! }
//!
//! let mut reader = Reader::new(shape, &mut store)?;
//! let mut line = vec![0; shape.width];
//! let mut again = Vec::new();
//! loop {
//!     match reader.want()? {
//!         Want::Row(row) => reader.feed(&rows.iter().find(|(r, _)| *r == row).expect("the writer made it").1)?,
//!         Want::Draw => again.extend_from_slice(reader.draw(&mut line)?.expect("a row to draw")),
//!         Want::Done => break,
//!         Want::Ended => unreachable!("the rows are a map's"),
//!     }
//! }
//! assert_eq!(again, [1, 4, 2, 7]);
//! # Ok(())
//! # }
//! ```
#![deny(unsafe_code)]

mod ground_file;
mod line;
mod loader;
mod map;
mod nearest_change;
mod picture;
mod profile;
mod question;
pub mod raw;
mod reader;
mod saver;
mod turns;
mod writer;

mod owned;

pub use line::{ccsds_line_backward, ccsds_line_forward, line_backward, line_forward};
pub use ground_file::{pack, unpack, Ground, Unpacking};
pub use loader::{Loader, LoaderWant};
pub use map::{band_row, error_bound, map_backward, map_forward, map_mend, round, view, Rectangle, Shape};
pub use nearest_change::{nearest_change, Change};
pub use picture::{picture_head, picture_row};
pub use profile::profile;
pub use question::{Call, Question};
pub use reader::{Reader, ReaderRun, Want};
pub use saver::{file_header, Saver};
pub use turns::Turns;
pub use writer::{Run, Writer};

pub use owned::{OwnedReader, OwnedWriter};

/// The version of the interface that this crate was written for: 10,000 for each major number, 100 for each minor one, and the patch.
pub const VERSION: u32 = 300;
/// The largest width of a map.
pub const MAX_WIDTH: usize = 2_049;
/// The largest height of a map.
pub const MAX_HEIGHT: usize = 4_294_967_295;
/// The largest number of levels: the 5/3's; the 9/7 has one fewer.
pub const MAX_LEVELS: usize = 5;
/// The filters, by the number that a [`Shape`] has: the reversible 5/3 of ITU-T T.800,
pub const FIVE_THREE: u32 = 0;
/// and the integer 9/7 of CCSDS 122.0.
pub const NINE_SEVEN: u32 = 1;
/// How many readers a [`Turns`] knows: their numbers are 0 to 15.
pub const READERS: usize = 16;

/// A band of a level. The first letter is horizontal: `Hl` is high along rows, low along columns.
#[derive(Clone, Copy, Debug, PartialEq, Eq, Hash)]
pub enum Band {
    Ll = 0,
    Hl = 1,
    Lh = 2,
    Hh = 3,
}

/// A band row: its level (1 the finest), band, number and length.
#[derive(Clone, Copy, Debug, PartialEq, Eq, Hash)]
pub struct BandRow {
    pub level: usize,
    pub band: Band,
    pub row: usize,
    pub length: usize,
}

impl BandRow {
    /// As the library names it: level, band, number, length.
    fn of([level, band, row, length]: [u64; 4]) -> BandRow {
        let band = [Band::Ll, Band::Hl, Band::Lh, Band::Hh][band as usize];
        BandRow { level: level as usize, band, row: row as usize, length: length as usize }
    }
}

/// The version of the archive that is linked; [`VERSION`], if they belong together.
pub fn version() -> u32 {
    raw::version()
}

/// The columns and rows of the low-low part (LL) of a level, 1 to the map's levels. A level may be empty: a 0.
pub fn level_size(shape: Shape, level: usize) -> Result<(usize, usize), Question> {
    let (mut columns, mut rows) = (0, 0);
    Question::of(Call::LevelSize, raw::level_size(shape, level, &mut columns, &mut rows))?;
    Ok((columns, rows))
}

/// How many numbers the line store of a writer needs, whatever the height; 0 where no set-up passes. It is enough for a reader too.
pub fn store_length(shape: Shape) -> usize {
    raw::store_length(shape)
}

/// How many numbers the line store of a reader needs: a writer's less one row of the map's columns.
pub fn reader_store_length(shape: Shape) -> usize {
    raw::reader_store_length(shape)
}
