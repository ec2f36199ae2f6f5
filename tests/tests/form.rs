//! The fixed form of a picture: its header and its rows, from any place on and into areas of any length, against the bytes written out here.
use terrain::{picture_head, picture_row, Call, Question, MAX_HEIGHT, MAX_WIDTH};
use terrain_tests::random::Random;

/// What a call that writes at most `room` bytes a time gives from its beginning on; past what it says it wrote, nothing changes.
fn gathered(room: usize, mut call: impl FnMut(usize, &mut [u8]) -> usize) -> Vec<u8> {
    let mut bytes = Vec::new();
    loop {
        let mut out = vec![0xa5; room + 3];
        let written = call(bytes.len(), &mut out[..room]);
        assert!(written <= room && out[written..].iter().all(|&b| b == 0xa5));
        if written == 0 {
            return bytes;
        }
        bytes.extend(&out[..written]);
    }
}

#[test]
fn headers() {
    for (width, height) in [(1, 1), (9, 10), (99, 100), (MAX_WIDTH, 65_535), (MAX_WIDTH, MAX_HEIGHT)] {
        let wanted = format!("P5\n{width} {height}\n65535\n").into_bytes();
        for room in [1, 2, 7, 64] {
            assert_eq!(gathered(room, |from, out| picture_head(width, height, from, out).expect("a size within the limits")), wanted);
        }
    }
}

#[test]
fn sizes_that_are_turned_away() {
    for (width, height, number) in [(0, 1, 2), (MAX_WIDTH + 1, 1, 2), (0, 0, 2), (1, 0, 3), (1, MAX_HEIGHT + 1, 3), (usize::MAX, usize::MAX, 2)] {
        let mut out = [0xa5; 40];
        assert_eq!(picture_head(width, height, 0, &mut out), Err(Question { call: Call::Picture, number }));
        assert_eq!(out, [0xa5; 40]);
    }
}

#[test]
fn rows() {
    let mut random = Random::new(7);
    for length in [0, 1, 2, 3, 17, 64, MAX_WIDTH] {
        let heights: Vec<u16> = (0..length).map(|_| random.below(65_536) as u16).collect();
        let wanted: Vec<u8> = heights.iter().flat_map(|h| h.to_be_bytes()).collect();
        for room in [1, 2, 3, 255, 5_000] {
            assert_eq!(gathered(room, |from, out| picture_row(&heights, from, out)), wanted);
        }
        assert_eq!(picture_row(&heights, usize::MAX, &mut [0; 4]), 0);
    }
}
