//! The writer and reader that own their store say what those say that borrow it; a clone goes on by itself; and a missing archive is one error.
use std::collections::HashMap;
use std::process::Command;
use terrain::*;

fn map(width: usize, height: usize) -> Vec<u16> {
    (0..width * height).map(|i| (i as u64 * 2_654_435_761 % 65_536) as u16).collect()
}

/// That size at every number of levels of each filter.
fn shapes(width: usize, height: usize) -> impl Iterator<Item = Shape> {
    let five_three = (1..=MAX_LEVELS).map(move |levels| Shape::new(width, height, levels));
    five_three.chain((1..MAX_LEVELS).map(move |levels| Shape::new(width, height, levels).by(NINE_SEVEN)))
}

fn draw_all(writer: &mut OwnedWriter, rows: &mut HashMap<BandRow, Vec<i32>>) {
    while let Some((row, values)) = writer.draw().unwrap() {
        assert_eq!(row.length, values.len());
        assert!(rows.insert(row, values.to_vec()).is_none());
    }
}

/// The rows of a map, and the writer as it was when half of the heights were taken.
fn rows_of(heights: &[u16], s: Shape) -> (HashMap<BandRow, Vec<i32>>, OwnedWriter) {
    let (mut writer, mut rows) = (OwnedWriter::new(s).unwrap(), HashMap::new());
    let (mut taken, mut half) = (0, writer.clone());
    while taken < heights.len() {
        taken += writer.offer(&heights[taken..]).unwrap();
        draw_all(&mut writer, &mut rows);
        if taken <= heights.len() / 2 {
            half = writer.clone();
        }
    }
    writer.finish().unwrap();
    draw_all(&mut writer, &mut rows);
    (rows, half)
}

fn heights_of(rows: &HashMap<BandRow, Vec<i32>>, reader: &mut OwnedReader) -> Vec<u16> {
    let mut heights = Vec::new();
    loop {
        match reader.want().unwrap() {
            Want::Row(row) => reader.feed(&rows[&row]).unwrap(),
            Want::Draw => heights.extend_from_slice(reader.draw().unwrap().expect("a row to draw")),
            Want::Done => return heights,
            Want::Ended => panic!("14 was answered before"),
        }
    }
}

#[test]
fn there_and_back() {
    for (width, height) in [(1, 1), (4, 1), (5, 3), (33, 20)] {
        for s in shapes(width, height) {
            let (heights, n) = (map(width, height), width * height);
            let (mut plane, mut work) = (vec![0; n], vec![0; n]);
            map_forward(&heights, s, &mut plane, &mut work).unwrap();
            let (rows, half) = rows_of(&heights, s);
            for (r, values) in &rows {
                assert_eq!(view(&plane, s, r.level, r.band, r.row).unwrap(), values, "{s:?} {r:?}");
            }
            let mut reader = OwnedReader::new(s).unwrap();
            assert_eq!(heights_of(&rows, &mut reader.clone()), heights, "{s:?}");
            assert_eq!(heights_of(&rows, &mut reader), heights, "{s:?}");
            // on from a copy of the numbers
            let again = OwnedWriter::resume(half.state(), half.store().to_vec());
            assert_eq!((again.state(), again.store()), (half.state(), half.store()));
        }
    }
}

#[test]
fn a_saved_writer_goes_on() {
    let (s, heights) = (Shape::new(5, 9, 2), map(5, 9));
    let mut writer = OwnedWriter::new(s).unwrap();
    let (mut taken, mut rows) = (0, HashMap::new());
    while taken < heights.len() {
        taken += writer.offer(&heights[taken..]).unwrap();
        writer = OwnedWriter::resume(writer.state(), writer.store().to_vec());
        draw_all(&mut writer, &mut rows);
    }
    writer.with(|writer| writer.finish()).unwrap();
    draw_all(&mut writer, &mut rows);
    assert_eq!(rows, rows_of(&heights, s).0);
}

#[test]
fn the_questions() {
    assert_eq!(OwnedWriter::new(Shape::new(0, 1, 1)).unwrap_err().number, 2);
    assert_eq!(OwnedWriter::new(Shape::new(1, 1, 6)).unwrap_err().number, 4);
    assert_eq!(OwnedReader::new(Shape::new(1, 0, 1)).unwrap_err().number, 3);
    assert_eq!(OwnedReader::new(Shape::new(usize::MAX, 1, 1)).unwrap_err().number, 2);
    assert_eq!(OwnedReader::resume([0; 16], Vec::new()).want().unwrap_err().number, 1);
    let mut reader = OwnedReader::new(Shape::new(1, 1, 1)).unwrap();
    assert_eq!(reader.draw(), Ok(None));
    assert_eq!(reader.feed(&[65_536]).unwrap_err().number, 14);
    assert_eq!(reader.with(|reader| reader.want()), Ok(Want::Ended));
}

#[test]
fn the_archive_is_of_this_version() {
    assert_eq!(version(), VERSION);
    let parts: Vec<u32> = env!("CARGO_PKG_VERSION").split('.').map(|n| n.parse().unwrap()).collect();
    assert_eq!(VERSION, 10_000 * parts[0] + 100 * parts[1] + parts[2]);
}

/// The build script, run as cargo runs it.
fn build_script(target: &str, folder: &str) -> String {
    let made = std::path::Path::new(env!("CARGO_TARGET_TMPDIR")).join("build-script");
    let compiled =
        Command::new("rustc").args(["--edition=2021", "build.rs", "-o"]).arg(&made).status().expect("rustc runs");
    assert!(compiled.success());
    let ran = Command::new(&made).env("TERRAIN_LIB", folder).env("TARGET", target).output().expect("the script runs");
    assert!(ran.status.success());
    String::from_utf8(ran.stdout).expect("text")
}

#[test]
fn a_missing_archive_is_one_error() {
    let errors =
        |said: &str| said.lines().filter(|l| l.starts_with("cargo::error=")).map(str::to_string).collect::<Vec<_>>();
    let said = build_script("x86_64-unknown-linux-gnu", "nowhere");
    let wanted = "cargo::error=nowhere/libterrain.a is missing: run `tools/build terrain`, or set TERRAIN_LIB to the folder that has it";
    assert_eq!(errors(&said), [wanted]);
    assert!(!said.contains("rustc-link-lib"), "no linker's page of errors follows: {said}");
    let said = build_script("aarch64-apple-darwin", "nowhere");
    assert_eq!(
        errors(&said),
        ["cargo::error=libterrain.a is for x86-64 Linux, and this build is for aarch64-apple-darwin"]
    );
}
