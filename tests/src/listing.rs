//! A second listing, straight from document 01, "The listing program", and 02, Q-1: the whole input in, the whole output back. The order of the rows is
//! `order`'s, their values the reference transform's.
use crate::maps::forward;
use crate::order::{place, BandRow, Writer};
use terrain::Shape;

const MAX_WIDTH: usize = 1_025;
const MAX_HEIGHT: usize = 65_535;

struct Head<'a> {
    levels: usize,
    width: usize,
    height: usize,
    largest: usize,
    body: &'a [u8],
}

/// A gap: one whitespace byte, or a comment with the CR or LF that ends it.
fn gap(s: &[u8]) -> Option<&[u8]> {
    match s.first()? {
        b' ' | b'\t' | b'\r' | b'\n' => Some(&s[1..]),
        b'#' => s.iter().position(|b| matches!(b, b'\r' | b'\n')).map(|end| &s[end + 1..]),
        _ => None,
    }
}

/// Gaps, one or more, and a number after them.
fn number(s: &[u8]) -> Option<(usize, &[u8])> {
    let mut s = gap(s)?;
    while let Some(rest) = gap(s) {
        s = rest;
    }
    let digits = s.iter().take_while(|b| b.is_ascii_digit()).count();
    if digits == 0 {
        return None;
    }
    // a number too long for any limit is one that is above them all
    let n = s[..digits].iter().fold(0usize, |n, &b| (10 * n + (b - b'0') as usize).min(1_000_000));
    Some((n, &s[digits..]))
}

fn head(s: &[u8]) -> Option<Head<'_>> {
    let levels = match s.first() {
        Some(&d @ b'1'..=b'5') => (d - b'0') as usize,
        _ => return None,
    };
    let s = s[1..].strip_prefix(b"\nP5")?;
    let (width, s) = number(s)?;
    let (height, s) = number(s)?;
    let (largest, s) = number(s)?;
    let body = gap(s)?;
    let fits = (1..=MAX_WIDTH).contains(&width) && (1..=MAX_HEIGHT).contains(&height) && (1..=65_535).contains(&largest);
    fits.then_some(Head { levels, width, height, largest, body })
}

impl Head<'_> {
    /// One byte a sample below 256, two from 256 on.
    fn size(&self) -> usize {
        if self.largest < 256 {
            1
        } else {
            2
        }
    }

    /// The heights, and the question that turns the input away after them, if one does: 16 goes by the first sample that is too large.
    fn heights(&self) -> (Vec<u16>, Option<u8>) {
        let cells = self.width * self.height;
        let samples = self.body.chunks_exact(self.size()).map(|b| b.iter().fold(0, |v, &b| 256 * v + u16::from(b)));
        let mut heights: Vec<u16> = samples.take(cells).collect();
        if let Some(first) = heights.iter().position(|&v| usize::from(v) > self.largest) {
            heights.truncate(first);
            return (heights, Some(16));
        }
        (heights, (self.body.len() != self.size() * cells).then_some(15))
    }
}

/// What the rewriting program gives of a picture, which has no line for L, and whether it is refused: the header of the fixed form, the complete rows,
/// and the refusal's line.
pub fn rewritten(picture: &[u8]) -> (Vec<u8>, bool) {
    let input = [b"1\n", picture].concat();
    let Some(h) = head(&input) else {
        return (refused(15).into_bytes(), true);
    };
    let (heights, refusal) = h.heights();
    let rows = &heights[..heights.len() / h.width * h.width];
    let mut out = format!("P5\n{} {}\n65535\n", h.width, h.height).into_bytes();
    out.extend(rows.iter().flat_map(|h| h.to_be_bytes()));
    out.extend(refusal.map_or(String::new(), refused).into_bytes());
    (out, refusal.is_some())
}

fn refused(question: u8) -> String {
    format!("refused {question}\n")
}

/// The rows that the heights make due, and those of the finish.
fn rows_due(h: &Head, heights: usize, finished: bool) -> Vec<BandRow> {
    let mut writer = Writer::new(Shape::new(h.width, h.height, h.levels));
    let mut rows = Vec::new();
    let mut left = heights;
    while left > 0 {
        left -= writer.offer(left).expect("no row waits");
        while let Ok(Some(row)) = writer.draw(h.width) {
            rows.push(row);
        }
    }
    if finished {
        writer.finish().expect("the map is whole");
        while let Ok(Some(row)) = writer.draw(h.width) {
            rows.push(row);
        }
    }
    rows
}

fn line(plane: &[i32], s: Shape, r: BandRow) -> String {
    let values = plane[place(s, r)].iter().map(|v| format!(" {v}")).collect::<String>();
    format!("{} {} {}{}\n", r.level, ["LL", "HL", "LH", "HH"][r.band], r.row, values)
}

/// Width, height and heights, if the input is accepted.
pub fn accepted(input: &[u8]) -> Option<(usize, usize, Vec<u16>)> {
    let h = head(input)?;
    match h.heights() {
        (heights, None) => Some((h.width, h.height, heights)),
        _ => None,
    }
}

pub fn listing(input: &[u8]) -> String {
    let Some(h) = head(input) else {
        return refused(15);
    };
    let (mut heights, refusal) = h.heights();
    let taken = heights.len();
    let finished = refusal.is_none();
    // rows made so far have the values of every map that begins with the heights taken: of this one, too, a good deal longer
    let rows = if finished { h.height } else { taken / h.width + 64 };
    heights.resize(h.width * rows, 12_345);
    let s = Shape::new(h.width, rows, h.levels);
    let plane = forward(&heights, s);
    let mut out = format!("{} {} {}\n", h.width, h.height, h.levels);
    for r in rows_due(&h, taken, finished) {
        out += &line(&plane, s, r);
    }
    refusal.map_or(out.clone(), |q| out + &refused(q))
}

#[cfg(test)]
mod tests {
    use super::listing;

    #[test]
    fn the_sample_of_the_scope() {
        let input = b"2\nP5 1 4 65535\n\0\x01\0\x04\0\x02\0\x07";
        assert_eq!(listing(input), "1 4 2\n1 LH 0 3\n1 LH 1 5\n2 LL 0 4\n2 LH 0 1\n");
    }

    #[test]
    fn refusals() {
        assert_eq!(listing(b""), "refused 15\n");
        assert_eq!(listing(b"6\nP5 1 1 65535\n\0\0"), "refused 15\n");
        assert_eq!(listing(b"1\nP5 1 1 65535\n\0"), "1 1 1\nrefused 15\n");
        assert_eq!(listing(b"1\nP5 1 1 65535\n\0\x01\0"), "1 1 1\nrefused 15\n");
        assert_eq!(listing(b"1\nP5 1 1 7\n\x08"), "1 1 1\nrefused 16\n");
        assert_eq!(listing(b"1\nP5 1 1 7\n\x07\x08"), "1 1 1\nrefused 15\n");
    }
}
