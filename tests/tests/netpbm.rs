//! The listing beside Netpbm's own tools: what `pgmtopgm` accepts and `list` refuses, or the other way round, is only what docs/DECISIONS.md
//! names, and where both accept, they read the same size and the same heights. Where Netpbm is not installed the test says so and is passed over.
use std::io::Write;
use std::process::{Command, Output, Stdio};
use std::thread;
use terrain_tests::built::program;
use terrain_tests::listing::accepted;
use terrain_tests::random::Random;

const TOOL: &str = "pgmtopgm";

fn run(program: &str, input: Vec<u8>) -> Output {
    let mut child = Command::new(program).stdin(Stdio::piped()).stdout(Stdio::piped()).stderr(Stdio::null()).spawn().expect("the program starts");
    let mut stdin = child.stdin.take().expect("it has an input");
    // a program that ends before its input does is no failure here
    let writing = thread::spawn(move || drop(stdin.write_all(&input)));
    let output = child.wait_with_output().expect("it ends");
    writing.join().expect("the input is written");
    output
}

fn list(picture: &[u8]) -> Option<String> {
    let output = run(program("list").to_str().expect("a path"), [b"1\n", picture].concat());
    let text = String::from_utf8(output.stdout).expect("text");
    (!text.contains("refused")).then_some(text)
}

/// The picture as the tool passes it on.
fn tool(picture: &[u8]) -> Option<Vec<u8>> {
    let output = run(TOOL, picture.to_vec());
    output.status.success().then_some(output.stdout)
}

/// Size and heights.
fn read(picture: &[u8]) -> Option<(usize, usize, Vec<u16>)> {
    accepted(&[b"1\n", picture].concat())
}

/// The header as the tools read it: no gap is asked for after P5, and any byte ends a number. Width, the header's bytes and those of the samples.
fn lenient(picture: &[u8]) -> Option<(usize, usize, usize)> {
    let mut at = picture.strip_prefix(b"P5").map(|_| 2)?;
    let mut next = || {
        let mut byte = *picture.get(at)?;
        if byte == b'#' {
            at += picture[at..].iter().position(|b| matches!(b, b'\r' | b'\n'))?;
            byte = picture[at];
        }
        at += 1;
        Some(byte)
    };
    let mut number = || {
        let mut byte = next()?;
        while matches!(byte, b' ' | b'\t' | b'\r' | b'\n') {
            byte = next()?;
        }
        let mut n = None;
        while byte.is_ascii_digit() {
            n = Some((10 * n.unwrap_or(0) + usize::from(byte - b'0')).min(1_000_000));
            byte = next()?;
        }
        n
    };
    let (width, height, largest) = (number()?, number()?, number()?);
    let fits = width > 0 && height > 0 && (1..=65_535).contains(&largest);
    fits.then_some((width, at, width * height * if largest < 256 { 1 } else { 2 }))
}

/// What DECISIONS.md names: a map too wide, surplus bytes, a header that our grammar does not have though its samples would do.
fn known(picture: &[u8], found: &mut [usize; 3]) -> bool {
    let Some((width, head, body)) = lenient(picture) else {
        return false;
    };
    let header_read = read(&[&picture[..head], &vec![0; body]].concat()).is_some();
    let why = [width > 1_025, picture.len() > head + body, width <= 1_025 && !header_read];
    why.iter().zip(found).for_each(|(&yes, n)| *n += usize::from(yes));
    why.contains(&true)
}

fn picture(random: &mut Random) -> Vec<u8> {
    let gaps = |random: &mut Random| -> String {
        let all = [" ", "\t", "\r", "\n", "#c\n", "# 1 2 \r", "\r\n", "", "x", "#"];
        let (count, kinds) = ([1, 1, 1, 2, 3][random.below(5)], [7, 7, 7, 7, 7, 7, 10][random.below(7)]);
        (0..count).map(|_| all[random.below(kinds)]).collect()
    };
    let largest = [255, 65_535, 256, 1, 254, 300, 255, 65_535, 256, 40_000, 0, 65_536][random.below(12)];
    let (width, height) = ([1, 2, 3, 4, 5, 6, 7, 1_025, 1_026, 0][random.below(10)], 1 + random.below(3));
    let (a, b, c, more) = (gaps(random), gaps(random), gaps(random), gaps(random));
    let d = [" ", "\n", "\r", "\t", "#c\n", "#\r", more.as_str()][random.below(7)];
    let magic = ["P5", " P5", "#\nP5", "P"][[0, 0, 0, 0, 0, 0, 0, 0, 0, 1, 2, 3][random.below(12)]];
    let zeros = "0".repeat(random.below(3));
    let mut bytes = format!("{magic}{a}{zeros}{width}{b}{height}{c}{largest}{d}").into_bytes();
    let most = [largest, largest, largest, largest, largest, 65_535][random.below(6)].min(65_535);
    for _ in 0..width * height {
        let sample = random.below(most + 1) as u16;
        bytes.extend(&sample.to_be_bytes()[usize::from(largest < 256)..]);
    }
    match random.below(8) {
        0 => bytes.truncate(random.below(bytes.len() + 1)),
        1 => bytes.extend([7; 3]),
        _ => (),
    }
    bytes
}

#[test]
fn what_the_tools_accept() {
    if Command::new(TOOL).arg("--version").output().is_err() {
        println!("passed over: {TOOL} is not installed (apt-get install netpbm)");
        return;
    }
    let mut random = Random::new(71);
    let (mut both, mut neither, mut differ) = (0, 0, [0; 3]);
    for _ in 0..1_500 {
        let picture = picture(&mut random);
        let head = String::from_utf8_lossy(&picture[..picture.len().min(60)]).into_owned();
        let ours = list(&picture);
        let second = read(&picture);
        assert_eq!(ours.is_some(), second.is_some(), "{head:?}");
        match (second, tool(&picture)) {
            (Some(a), Some(b)) => {
                assert!(Some(a) == read(&b), "read otherwise: {head:?}");
                both += 1;
            }
            (None, None) => neither += 1,
            (None, Some(_)) => assert!(known(&picture, &mut differ), "only the tool accepts {head:?}"),
            (Some(_), None) => panic!("only the listing accepts {head:?}"),
        }
    }
    println!("both {both}, neither {neither}, the tool alone: too wide {}, surplus bytes {}, no gap where one is due {}", differ[0], differ[1], differ[2]);
    assert!(both > 300 && neither > 100 && differ.iter().all(|&n| n > 0));
}
