//! The header of a ground file against a second reading of docs/FORMAT.md: every shape's own header, every byte of one changed to every other, and headers
//! made at random.
use terrain::{file_header, raw, Call, Shape};
use terrain_tests::random::Random;
use terrain_tests::{filter, ground, maps, refusal, UNSET};

/// "5 for fewer, 22 (first eight bytes, version, last two, a step above 1 with an origin or the 9/7), then 2, 3, 18, 4, 20."
fn expected(bytes: &[u8]) -> Result<(Shape, usize), u32> {
    let Some(b) = bytes.get(..24) else { return Err(5) };
    let two = |i: usize| u16::from_le_bytes([b[i], b[i + 1]]);
    let height = u32::from_le_bytes([b[18], b[19], b[20], b[21]]);
    let (levels, step) = (usize::from(b[10]), usize::from(b[11]));
    let s = Shape::new(two(16).into(), height as usize, levels).at(two(12), two(14)).by(b[9].into());
    let signed = b[..9] == [0x89, 0x47, 0x4e, 0x44, 0x0d, 0x0a, 0x1a, 0x0a, 1] && b[22..] == [0, 0];
    let most = if s.filter == 0 { 5 } else { 4 };
    match () {
        _ if !signed || step > 1 && (s.x > 0 || s.y > 0 || s.filter == 1) => Err(22),
        _ if !(1..=2_049).contains(&s.width) => Err(2),
        _ if height == 0 => Err(3),
        _ if s.filter > 1 => Err(18),
        _ if !(1..=most).contains(&levels) => Err(4),
        _ if !(1..=64).contains(&step) => Err(20),
        _ => Ok((s, step)),
    }
}

/// What the wrapper says; and a number leaves the seven numbers as they were.
fn check(bytes: &[u8]) {
    let answer = expected(bytes);
    match answer {
        Ok(said) => assert_eq!(file_header(bytes), Ok(said), "{bytes:02x?}"),
        Err(number) => assert_eq!(file_header(bytes), refusal(Call::FileHeader, number), "{bytes:02x?}"),
    }
    let numbers = |(s, step): (Shape, usize)| [s.width, s.height, s.levels, s.x.into(), s.y.into(), s.filter as usize, step].map(|n| n as u64);
    let mut header = [UNSET as u64; 7];
    assert_eq!(raw::file_header(bytes, &mut header), answer.err().unwrap_or(0));
    assert_eq!(header, answer.map_or([UNSET as u64; 7], numbers));
}

/// A shape and a step that a file has.
fn shape(random: &mut Random) -> (Shape, usize) {
    let (f, levels) = filter::kinds().nth(random.below(9)).expect("nine kinds");
    let (width, height) = (1 + random.below(2_049), 1 + random.below(maps::MAX_HEIGHT));
    if random.below(2) == 0 {
        return (Shape::new(width, height, levels.min(5)), 1 + random.below(64));
    }
    let (x, y) = maps::origin(random);
    (Shape::new(width, height, levels).at(x, y).by(f), 1)
}

#[test]
fn every_shape_has_its_own() {
    let mut random = Random::new(91);
    for _ in 0..20_000 {
        let (s, step) = shape(&mut random);
        let mut bytes = ground::header(s, step);
        assert_eq!(file_header(&bytes), Ok((s, step)));
        check(&bytes);
        bytes.extend((0..random.below(9)).map(|_| random.bits() as u8));
        check(&bytes);
    }
}

#[test]
fn every_byte_changed() {
    let mut random = Random::new(92);
    for _ in 0..40 {
        let (s, step) = shape(&mut random);
        let bytes = ground::header(s, step);
        for (i, to) in (0..24).flat_map(|i| (0..=255).map(move |to| (i, to))) {
            let mut other = bytes.clone();
            other[i] = to;
            check(&other);
        }
        (0..24).for_each(|n| check(&bytes[..n]));
    }
}

#[test]
fn made_at_random() {
    let mut random = Random::new(93);
    for _ in 0..200_000 {
        let (s, step) = shape(&mut random);
        let mut bytes = ground::header(s, step);
        for _ in 0..1 + random.below(4) {
            let i = 9 + random.below(15);
            bytes[i] = [0, 1, 2, 5, 6, 64, 65, 255, random.bits() as u8][random.below(9)];
        }
        check(&bytes);
    }
}
