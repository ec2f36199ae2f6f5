//! The built program `list`, run on inputs good and bad that reach it in pieces, beside a second listing. The input is a socket of datagrams:
//! each read gives one piece, so the cuts are the test's own, and an empty one is the end. Then inputs and outputs that fail or do not wait.
use std::fs::{self, File};
use std::io::{Read, Write};
use std::os::fd::OwnedFd;
use std::os::unix::net::{UnixDatagram, UnixStream};
use std::path::Path;
use std::process::{Child, Command, Stdio};
use std::thread;
use std::time::{Duration, Instant};
use terrain_tests::listing::listing;
use terrain_tests::programs::{self, said, Said};
use terrain_tests::random::Random;

fn start(input: Stdio, output: Stdio) -> Child {
    programs::start("list", input, output)
}

fn run(input: Stdio) -> Said {
    said(start(input, Stdio::piped()))
}

/// What the program writes of an input that comes in these pieces. After a refusal it reads no more of them.
fn list(pieces: Vec<Vec<u8>>) -> Vec<u8> {
    let (ours, its) = UnixDatagram::pair().expect("a pair of sockets");
    let writing = thread::spawn(move || pieces.iter().chain([&Vec::new()]).take_while(|piece| ours.send(piece).is_ok()).count());
    let found = run(Stdio::from(OwnedFd::from(its)));
    writing.join().expect("all was written that is read");
    assert_eq!(found.error, "");
    found.out
}

fn cut(input: &[u8], random: &mut Random) -> Vec<Vec<u8>> {
    let longest = [1, 2, 3, 17, 1_000, 65_536][random.below(6)];
    let mut pieces = Vec::new();
    let mut rest = input;
    while !rest.is_empty() {
        let n = (1 + random.below(longest)).min(rest.len());
        pieces.push(rest[..n].to_vec());
        rest = &rest[n..];
    }
    pieces
}

fn agree(input: &[u8], random: &mut Random) {
    let found = list(cut(input, random));
    let wanted = listing(input).into_bytes();
    if found != wanted {
        let same = found.iter().zip(&wanted).take_while(|(a, b)| a == b).count();
        let near = |text: &[u8]| String::from_utf8_lossy(&text[same.saturating_sub(40)..text.len().min(same + 40)]).into_owned();
        let head = String::from_utf8_lossy(&input[..input.len().min(40)]);
        panic!("input {head:?}: from byte {same} on\nwanted ...{:?}...\nfound  ...{:?}...", near(&wanted), near(&found));
    }
}

fn pick<'a>(random: &mut Random, all: &[&'a str]) -> &'a str {
    all[random.below(all.len())]
}

/// One gap, and gaps as paint tools write them.
fn gap(random: &mut Random) -> &'static str {
    pick(random, &[" ", "\t", "\r", "\n", "# made by hand\n", "#\r", "#1 2 3 # \n"])
}

fn gaps(random: &mut Random) -> String {
    (0..1 + random.below(3)).map(|_| gap(random)).collect()
}

fn header(levels: usize, width: usize, height: usize, largest: usize, random: &mut Random) -> Vec<u8> {
    let zeros = "0".repeat(random.below(3));
    let (a, b, c, d) = (gaps(random), gaps(random), gaps(random), gap(random));
    format!("{levels}\nP5{a}{zeros}{width}{b}{height}{c}{zeros}{largest}{d}").into_bytes()
}

fn largest(random: &mut Random) -> usize {
    [65_535, 255, 1, 254, 256, 257, 40_000, 1 + random.below(65_535)][random.below(8)]
}

fn bytes(sample: usize, largest: usize) -> Vec<u8> {
    let two = (sample as u16).to_be_bytes();
    two[usize::from(largest < 256)..].to_vec()
}

fn map(width: usize, height: usize, largest: usize, random: &mut Random) -> Vec<u8> {
    let kind = random.below(4);
    let height_of = |random: &mut Random| match kind {
        0 => 0,
        1 => largest,
        2 => largest / 2 + random.below(40.min(largest - largest / 2)),
        _ => random.below(largest + 1),
    };
    (0..width * height).flat_map(|_| bytes(height_of(random), largest)).collect()
}

fn good(random: &mut Random, most: usize) -> Vec<u8> {
    let (levels, width, height, largest) = (1 + random.below(5), 1 + random.below(most), 1 + random.below(most), largest(random));
    let mut input = header(levels, width, height, largest, random);
    input.extend(map(width, height, largest, random));
    input
}

#[test]
fn maps_of_many_sizes() {
    let mut random = Random::new(61);
    for _ in 0..150 {
        let input = good(&mut random, 24);
        agree(&input, &mut random);
    }
}

#[test]
fn too_few_bytes_and_too_many() {
    let mut random = Random::new(62);
    for _ in 0..100 {
        let mut input = good(&mut random, 9);
        if random.below(2) == 0 {
            input.truncate(random.below(input.len() + 1));
        } else {
            input.extend((0..1 + random.below(40)).map(|i| i as u8));
        }
        agree(&input, &mut random);
    }
}

#[test]
fn a_sample_too_large() {
    let mut random = Random::new(66);
    for _ in 0..100 {
        let (levels, width, height) = (1 + random.below(5), 1 + random.below(9), 1 + random.below(9));
        let largest = [1, 200, 254, 256, 300, 65_534][random.below(6)];
        let mut input = header(levels, width, height, largest, &mut random);
        let (head, size) = (input.len(), bytes(0, largest).len());
        input.extend(map(width, height, largest, &mut random));
        // the first, the last or any other; now and then two, and the input may go on or end too soon
        for _ in 0..1 + random.below(2) {
            let at = [0, width * height - 1, random.below(width * height)][random.below(3)];
            let sample = largest + 1 + random.below([3, 65_536][usize::from(size == 2)].min(if size == 1 { 255 } else { 65_535 } - largest));
            input[head + size * at..head + size * (at + 1)].copy_from_slice(&bytes(sample, largest));
        }
        match random.below(4) {
            0 => input.truncate(head + random.below(input.len() - head + 1)),
            1 => input.extend([255; 3]),
            _ => (),
        }
        agree(&input, &mut random);
    }
}

#[test]
fn a_map_listed_from_either_header() {
    let mut random = Random::new(67);
    for _ in 0..20 {
        let (levels, width, height) = (1 + random.below(5), 1 + random.below(9), 1 + random.below(9));
        let heights: Vec<usize> = (0..width * height).map(|_| random.below(200)).collect();
        let mut from = |largest: usize| {
            let mut input = header(levels, width, height, largest, &mut random);
            input.extend(heights.iter().flat_map(|&h| bytes(h, largest)));
            list(vec![input])
        };
        let one = from(65_535);
        assert!(!String::from_utf8_lossy(&one).contains("refused"));
        assert_eq!(one, from(200));
        assert_eq!(one, from(255));
        assert_eq!(one, from(256));
    }
}

#[test]
fn headers_with_a_byte_changed() {
    let mut random = Random::new(63);
    for _ in 0..200 {
        let mut input = good(&mut random, 5);
        let at = random.below(input.len().min(24));
        match random.below(3) {
            0 => input[at] = [b'0', b'1', b'6', b'9', b' ', b'\n', b'\r', b'#', b'P', b'x', 0, 255][random.below(12)],
            1 => input.insert(at, [b'0', b' ', b'7', b'\t', b'#', b'x'][random.below(6)]),
            _ => {
                input.remove(at);
            }
        }
        agree(&input, &mut random);
    }
}

#[test]
fn the_limits_of_the_header() {
    let mut random = Random::new(64);
    for (width, height) in [(1_025, 1), (1_026, 1), (0, 1), (1, 0), (1, 65_535), (1, 65_536), (65_536, 1), (1_025, 5)] {
        for levels in [0, 1, 5, 6] {
            let mut input = header(levels, width, height, 65_535, &mut random);
            input.extend(map(width, height.min(70), 65_535, &mut random));
            agree(&input, &mut random);
        }
    }
    for largest in [0, 1, 255, 256, 65_535, 65_536] {
        let mut input = header(1, 2, 2, largest, &mut random);
        input.extend([0; 8]);
        agree(&input, &mut random);
        input.truncate(input.len() - 4);
        agree(&input, &mut random);
    }
}

#[test]
fn a_large_map() {
    let mut random = Random::new(65);
    for largest in [65_535, 255] {
        let mut input = header(5, 1_025, 129, largest, &mut random);
        input.extend(map(1_025, 129, largest, &mut random));
        agree(&input, &mut random);
        input.pop();
        agree(&input, &mut random);
    }
}

/// The stored inputs of the program `list_files`: what they must give is what the second listing gives.
#[test]
fn the_stored_inputs() {
    let folder = Path::new(env!("CARGO_MANIFEST_DIR")).join("../crates/list_files");
    let names = fs::read_to_string(folder.join("args")).expect("the names are there");
    let mut wanted = String::new();
    for name in names.lines() {
        let input = fs::read(folder.join("data").join(name)).expect("the input is there");
        wanted += &format!("{name}:\n{}", listing(&input));
    }
    let stored = fs::read_to_string(folder.join("stdout")).expect("the expected output is there");
    assert!(stored == wanted, "list_files/stdout is not what the second listing gives");
}

fn map_of(width: usize, height: usize, seed: u64) -> Vec<u8> {
    let mut random = Random::new(seed);
    let mut input = header(3, width, height, 65535, &mut random);
    input.extend(map(width, height, 65535, &mut random));
    input
}

#[test]
fn a_directory_is_no_map() {
    let folder = File::open(env!("CARGO_MANIFEST_DIR")).expect("the folder is there");
    let found = run(Stdio::from(folder));
    assert_eq!((found.out.as_slice(), found.error.as_str()), (&b""[..], "standard input: Is a directory\n"));
}

/// A socket whose other end is closed with bytes unread is reset: the lines due stay, no refusal blames the picture, and an error says so.
#[test]
fn an_input_that_is_reset_is_not_one_that_ended() {
    let input = map_of(4, 9, 66);
    let (mut ours, its) = UnixStream::pair().expect("a pair of sockets");
    (&its).write_all(b"unread").expect("it is written");
    ours.write_all(&input[..input.len() - 3]).expect("it is written");
    let mut child = start(Stdio::from(OwnedFd::from(its)), Stdio::piped());
    let mut first = [0; 6];
    child.stdout.as_mut().expect("it has an output").read_exact(&mut first).expect("lines are due");
    drop(ours);
    let found = said(child);
    let wanted = listing(&input[..input.len() - 3]);
    let due = wanted.strip_suffix("refused 15\n").expect("bytes are missing");
    assert_eq!(String::from_utf8([&first[..], &found.out].concat()).expect("text"), due);
    assert_eq!(found.error, "standard input: Connection reset by peer\n");
}

#[test]
fn an_output_that_is_full() {
    let full = File::create("/dev/full").expect("the device is there");
    let (mut ours, its) = UnixStream::pair().expect("a pair of sockets");
    ours.write_all(&map_of(4, 4, 67)).expect("it is written");
    let found = said(start(Stdio::from(OwnedFd::from(its)), Stdio::from(full)));
    assert_eq!(found.error, "standard output: No space left on device\n");
}

#[test]
fn descriptors_that_are_closed() {
    let closed = |which: &str, name: &str| {
        let found = programs::closed("list", which);
        assert_eq!((found.out.as_slice(), found.error), (&b""[..], format!("{name}: Bad file descriptor\n")));
    };
    closed("<&-", "standard input");
    closed(">&-", "standard output");
}

/// The input stays open and says no more: a program that read on would wait for ever.
#[test]
fn after_a_refusal_nothing_is_read() {
    let mut surplus = map_of(3, 3, 68);
    surplus.push(0);
    for input in [b"6\nP5".to_vec(), b"3\nP6 ".to_vec(), surplus] {
        let (mut ours, its) = UnixStream::pair().expect("a pair of sockets");
        ours.write_all(&input).expect("it is written");
        let mut child = start(Stdio::from(OwnedFd::from(its)), Stdio::piped());
        let begun = Instant::now();
        while child.try_wait().expect("it is there").is_none() {
            if begun.elapsed() > Duration::from_secs(20) {
                child.kill().expect("it is there");
                panic!("the program reads on");
            }
            thread::sleep(Duration::from_millis(5));
        }
        let found = said(child);
        assert_eq!((String::from_utf8(found.out).expect("text"), found.error), (listing(&input), String::new()));
    }
}

/// Neither end waits: a read and a write that would have to wait are made again, and no byte is lost or doubled.
#[test]
fn descriptors_that_do_not_wait() {
    let input = map_of(61, 200, 69);
    let (mut ours, its) = UnixStream::pair().expect("a pair of sockets");
    let (mut outs, theirs) = UnixStream::pair().expect("a pair of sockets");
    its.set_nonblocking(true).expect("it is set");
    theirs.set_nonblocking(true).expect("it is set");
    let child = start(Stdio::from(OwnedFd::from(its)), Stdio::from(OwnedFd::from(theirs)));
    let pieces = input.clone();
    let writing = thread::spawn(move || {
        for piece in pieces.chunks(3_000) {
            thread::sleep(Duration::from_millis(5));
            ours.write_all(piece).expect("it is written");
        }
    });
    thread::sleep(Duration::from_millis(100));
    let mut out: Vec<u8> = Vec::new();
    let mut piece = [0; 2_000];
    loop {
        let n = outs.read(&mut piece).expect("it is read");
        if n == 0 {
            break;
        }
        out.extend(&piece[..n]);
    }
    writing.join().expect("all was written");
    assert_eq!((out == listing(&input).into_bytes(), said(child).error), (true, String::new()));
}

/// A socket with a time limit gives up a read after it, and at a signal that stops and resumes the program.
#[test]
fn a_read_that_is_interrupted() {
    let input = map_of(5, 5, 70);
    let (mut ours, its) = UnixStream::pair().expect("a pair of sockets");
    its.set_read_timeout(Some(Duration::from_millis(200))).expect("it is set");
    let child = start(Stdio::from(OwnedFd::from(its)), Stdio::piped());
    let (half, rest) = input.split_at(input.len() / 2);
    ours.write_all(half).expect("it is written");
    for signal in ["-STOP", "-CONT", "-STOP", "-CONT"] {
        thread::sleep(Duration::from_millis(70));
        assert!(Command::new("sh").args(["-c", "kill \"$0\" \"$1\"", signal, &child.id().to_string()]).status().expect("it runs").success());
    }
    thread::sleep(Duration::from_millis(300));
    ours.write_all(rest).expect("it is written");
    drop(ours);
    let found = said(child);
    assert_eq!((String::from_utf8(found.out).expect("text"), found.error), (listing(&input), String::new()));
}
