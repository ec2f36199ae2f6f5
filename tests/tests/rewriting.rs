//! The built program `rewrite` on inputs good and bad, beside a second reading; what it gives for an accepted input it gives again, and where Netpbm is
//! installed and the largest value is 65535 it is what `pgmtopgm` gives. Inputs and outputs above and at the size of its areas; inputs and outputs that
//! fail.
use std::fs::{self, File};
use std::io::{Read, Write};
use std::os::fd::OwnedFd;
use std::os::unix::net::{UnixDatagram, UnixStream};
use std::path::PathBuf;
use std::process::{Command, Stdio};
use std::thread;
use terrain_tests::listing::rewritten;
use terrain_tests::programs::{self, program, said, start};
use terrain_tests::random::Random;

fn run(program: &str, input: Vec<u8>) -> Vec<u8> {
    let mut child = Command::new(program).stdin(Stdio::piped()).stdout(Stdio::piped()).stderr(Stdio::null()).spawn().expect("the program starts");
    let mut stdin = child.stdin.take().expect("it has an input");
    // a program that ends before its input does is no failure here
    let writing = thread::spawn(move || drop(stdin.write_all(&input)));
    let output = child.wait_with_output().expect("it ends");
    writing.join().expect("the input is written");
    output.stdout
}

fn rewrite(picture: &[u8]) -> Vec<u8> {
    run(program("rewrite").to_str().expect("a path"), picture.to_vec())
}

fn gaps(random: &mut Random) -> String {
    let all = [" ", "\t", "\r", "\n", "#c\n", "# 1 2\r", "\r\n"];
    (0..1 + random.below(3)).map(|_| all[random.below(all.len())]).collect()
}

fn picture(random: &mut Random) -> Vec<u8> {
    let largest = [255, 65_535, 256, 1, 254, 300, 65_535, 40_000, 0, 65_536][random.below(10)];
    let (width, height) = ([1, 2, 3, 4, 5, 6, 7, 1_025, 1_026, 0][random.below(10)], 1 + random.below(5));
    let (a, b, c) = (gaps(random), gaps(random), gaps(random));
    let magic = ["P5", "P5", "P5", "P5", "P5", "P5", "P5", "P6", "1\nP5"][random.below(9)];
    let end = [" ", "\n", "#\r", "#x\n", "\t", "z"][random.below(6)];
    let mut bytes = format!("{magic}{a}{width}{b}0{height}{c}{largest}{end}").into_bytes();
    let most = [largest, largest, largest, largest, 65_535][random.below(5)].min(65_535);
    for _ in 0..width * height {
        let sample = random.below(most + 1) as u16;
        bytes.extend(&sample.to_be_bytes()[usize::from(largest < 256)..]);
    }
    match random.below(8) {
        0 => bytes.truncate(random.below(bytes.len() + 1)),
        1 => bytes.extend([7; 3]),
        _ => (),
    }
    bytes
}

#[test]
fn pictures_of_many_kinds() {
    let tool = Command::new("pgmtopgm").arg("--version").output().is_ok();
    if !tool {
        println!("without Netpbm's tools: pgmtopgm is not installed (apt-get install netpbm)");
    }
    let (mut accepted, mut compared) = (0, 0);
    let mut random = Random::new(81);
    for _ in 0..600 {
        let picture = picture(&mut random);
        let (wanted, refused) = rewritten(&picture);
        let found = rewrite(&picture);
        assert!(found == wanted, "{:?}", String::from_utf8_lossy(&picture[..picture.len().min(60)]));
        if refused {
            continue;
        }
        accepted += 1;
        assert!(rewrite(&found) == found, "it does not give itself");
        let largest = String::from_utf8_lossy(&picture[..picture.len().min(60)]).contains("65535");
        if tool && largest {
            assert!(run("pgmtopgm", picture) == found, "the tool gives another picture");
            compared += 1;
        }
    }
    println!("accepted {accepted}, as pgmtopgm {compared}");
    assert!(accepted > 100);
}

/// The size of the program's chunk and of its output area.
const AREA: usize = 65_536;

fn samples(count: usize, largest: usize, random: &mut Random) -> Vec<u8> {
    (0..count).flat_map(|_| (random.below(largest + 1) as u16).to_be_bytes()[usize::from(largest < 256)..].to_vec()).collect()
}

/// A picture whose input is `length` bytes, filled up by a comment.
fn input_of(length: usize, width: usize, height: usize, largest: usize, random: &mut Random) -> Vec<u8> {
    let heights = samples(width * height, largest, random);
    let (mark, rest) = ("P5\n#", format!("\n{width} {height} {largest}\n"));
    let comment = "c".repeat(length - mark.len() - rest.len() - heights.len());
    [mark.as_bytes(), comment.as_bytes(), rest.as_bytes(), &heights].concat()
}

/// Width and height of a picture whose output is `length` bytes, if there is one.
fn size_of_output(length: usize) -> Option<(usize, usize)> {
    let head = |width: usize, height: usize| format!("P5\n{width} {height} 65535\n").len();
    (1..=1_025).find_map(|width| {
        let about = length / (2 * width);
        (about.saturating_sub(20)..=about).find(|&height| 0 < height && head(width, height) + 2 * width * height == length).map(|height| (width, height))
    })
}

fn from_file(name: &str, bytes: &[u8]) -> Vec<u8> {
    let path: PathBuf = std::env::temp_dir().join(format!("rewriting-{}-{name}", std::process::id()));
    fs::write(&path, bytes).expect("the file is written");
    let found = said(start("rewrite", Stdio::from(File::open(&path).expect("it is there")), Stdio::piped()));
    fs::remove_file(&path).expect("it is there");
    assert_eq!(found.error, "");
    found.out
}

/// Each read of a file fills the chunk, so an input goes over it, ends with it and begins it anew.
#[test]
fn inputs_around_the_chunk() {
    let mut random = Random::new(82);
    for chunks in [1, 2, 3] {
        for largest in [65_535, 255] {
            let height = (chunks * AREA - 200) / (500 * if largest < 256 { 1 } else { 2 });
            for length in [chunks * AREA - 1, chunks * AREA, chunks * AREA + 1, chunks * AREA + 40_000] {
                let mut input = input_of(length, 500, height, largest, &mut random);
                assert_eq!(input.len(), length);
                let (wanted, refused) = rewritten(&input);
                assert!(!refused && from_file("chunk", &input) == wanted, "{length} bytes, {largest}");
                input.pop();
                assert!(from_file("chunk", &input) == rewritten(&input).0, "{length} bytes less one, {largest}");
                input.extend([0, 0, 0]);
                assert!(from_file("chunk", &input) == rewritten(&input).0, "{length} bytes and two, {largest}");
            }
        }
    }
}

/// The output area is full shortly before the end of all, at it and shortly after it, so that it was full within a row before.
#[test]
fn outputs_around_the_area() {
    let mut random = Random::new(83);
    for length in [AREA, 2 * AREA].into_iter().flat_map(|area| area - 12..=area + 12) {
        let Some((width, height)) = size_of_output(length) else {
            assert!(length % AREA != 0, "no picture has this output");
            continue;
        };
        for largest in [65_535, 255] {
            let input = [format!("P5 {width} {height} {largest}\n").as_bytes(), &samples(width * height, largest, &mut random)].concat();
            let found = from_file("area", &input);
            assert!(found.len() == length && found == rewritten(&input).0, "{length} bytes, {largest}");
            let cut = &input[..input.len() - 1];
            assert!(from_file("area", cut) == rewritten(cut).0, "{length} bytes, {largest}, one byte missing");
        }
    }
}

/// The cuts are the test's own: each read gives one datagram, and an empty one is the end.
#[test]
fn inputs_in_pieces() {
    let mut random = Random::new(84);
    for longest in [7, 1_000, AREA] {
        for largest in [65_535, 255] {
            let input = input_of(150_000, 700, if largest < 256 { 200 } else { 100 }, largest, &mut random);
            let wanted = rewritten(&input).0;
            let (ours, its) = UnixDatagram::pair().expect("a pair of sockets");
            let mut pieces: Vec<Vec<u8>> = Vec::new();
            let mut rest = &input[..];
            while !rest.is_empty() {
                let (piece, more) = rest.split_at((1 + random.below(longest)).min(rest.len()));
                pieces.push(piece.to_vec());
                rest = more;
            }
            let writing = thread::spawn(move || pieces.iter().chain([&Vec::new()]).take_while(|piece| ours.send(piece).is_ok()).count());
            let found = said(start("rewrite", Stdio::from(OwnedFd::from(its)), Stdio::piped()));
            writing.join().expect("all was written that is read");
            assert!((found.out == wanted, found.error.as_str()) == (true, ""), "pieces of up to {longest}, {largest}");
        }
    }
}

#[test]
fn a_directory_is_no_picture() {
    let folder = File::open(env!("CARGO_MANIFEST_DIR")).expect("the folder is there");
    let found = said(start("rewrite", Stdio::from(folder), Stdio::piped()));
    assert_eq!((found.out.as_slice(), found.error.as_str()), (&b""[..], "standard input: Is a directory\n"));
}

/// An input that is reset is not one that ended: the rows due stay, no refusal blames the picture, and an error says so.
#[test]
fn an_input_that_is_reset() {
    let input = input_of(100_000, 300, 160, 65_535, &mut Random::new(85));
    let cut = &input[..input.len() - 3];
    let (mut ours, its) = UnixStream::pair().expect("a pair of sockets");
    (&its).write_all(b"unread").expect("it is written");
    let mut child = start("rewrite", Stdio::from(OwnedFd::from(its)), Stdio::piped());
    let wanted = rewritten(cut).0;
    let due = wanted.strip_suffix(b"refused 15\n").expect("bytes are missing");
    let mut out = vec![0; due.len()];
    let feeding = thread::scope(|scope| {
        let writing = scope.spawn(|| ours.write_all(cut).is_ok());
        child.stdout.as_mut().expect("it has an output").read_exact(&mut out).expect("rows are due");
        writing.join().expect("it is written")
    });
    drop(ours);
    let found = said(child);
    assert!(feeding && out == due && found.out.is_empty());
    assert_eq!(found.error, "standard input: Connection reset by peer\n");
}

#[test]
fn an_output_that_is_full() {
    let full = File::create("/dev/full").expect("the device is there");
    let (mut ours, its) = UnixStream::pair().expect("a pair of sockets");
    ours.write_all(b"P5 2 2 255\nabcd").expect("it is written");
    let found = said(start("rewrite", Stdio::from(OwnedFd::from(its)), Stdio::from(full)));
    assert_eq!(found.error, "standard output: No space left on device\n");
}

#[test]
fn descriptors_that_are_closed() {
    for (which, name) in [("<&-", "standard input"), (">&-", "standard output")] {
        let found = programs::closed("rewrite", which);
        assert_eq!((found.out.as_slice(), found.error), (&b""[..], format!("{name}: Bad file descriptor\n")));
    }
}
