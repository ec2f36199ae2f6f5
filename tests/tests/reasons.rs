//! The rules by which the command and the examples read a PGM and say why they refuse one (examples/pgm_scan.h) are the listing's: over random inputs, good
//! and spoilt, in pieces of random sizes, they take what the second reading takes, with the same size and heights, and else name a reason.
use std::io::Write;
use std::path::{Path, PathBuf};
use std::process::{Command, Stdio};
use terrain_tests::listing::accepted;
use terrain_tests::random::Random;

/// Inputs one after the other, each after its length and the size of its pieces; for each a line: width, height and heights, or a reason.
const PROGRAM: &str = r#"
#include <stdlib.h>
#include "examples/pgm_scan.h"

static uint32_t number(void)
{
    uint8_t b[4];
    return fread(b, 1, 4, stdin) == 4 ? b[0] | b[1] << 8 | b[2] << 16 | (uint32_t)b[3] << 24 : 0;
}

int main(void)
{
    static uint8_t bytes[1 << 20];
    static uint16_t heights[1 << 20];
    PgmLimits limits = {1025, 65535, "this test takes"};
    for (uint32_t length; (length = number()) > 0;) {
        uint32_t piece = number();
        PgmScan s = pgm_scan_begin(limits);
        if (fread(bytes, 1, length, stdin) < length) return 1;
        for (uint32_t at = 0; at < length && !s.wrong[0]; at += piece) {
            size_t all = length - at < piece ? length - at : piece;
            for (size_t done = 0; done < all && !s.wrong[0]; done += pgm_scan(&s, bytes + at + done, all - done))
                s.heights = pgm_head_whole(&s) && pgm_count(&s) <= 1 << 20 ? heights : NULL;
        }
        pgm_scan_end(&s);
        if (!s.wrong[0]) printf("%u %u", (unsigned)s.number[PGM_WIDTH], (unsigned)s.number[PGM_HEIGHT]);
        for (uint64_t i = 0; !s.wrong[0] && i < s.samples; i++) printf(" %u", heights[i]);
        puts(s.wrong);
    }
    return 0;
}
"#;

fn program() -> PathBuf {
    let root = Path::new(env!("CARGO_MANIFEST_DIR")).parent().expect("tests/ stands in the repository");
    let made = Path::new(env!("CARGO_TARGET_TMPDIR"));
    std::fs::write(made.join("reasons.c"), PROGRAM).expect("written");
    let compiled = Command::new("cc")
        .args(["-std=c11", "-O1", "-Wall", "-Wextra", "-Werror", "-I"])
        .args([root.to_path_buf(), made.join("reasons.c")])
        .arg("-o")
        .arg(made.join("reasons"))
        .status()
        .expect("cc runs");
    assert!(compiled.success());
    made.join("reasons")
}

/// A small picture as tools write them, or nearly.
fn picture(random: &mut Random) -> Vec<u8> {
    let gaps = [" ", "\n", "\t", "\r\n", "#c\n", " # 1 2\r"];
    let gap = |random: &mut Random| gaps[random.below(gaps.len())];
    let most = [1, 7, 255, 256, 65_535][random.below(5)];
    let (width, height) = (1 + random.below(6), 1 + random.below(4));
    let (a, b, c) = (gap(random), gap(random), gap(random));
    let mut bytes = format!("P5{a}{width}{b}0{height}{c}{most}\n").into_bytes();
    for _ in 0..width * height {
        let height = random.below(most + 1) as u16;
        bytes.extend_from_slice(&height.to_be_bytes()[if most < 256 { 1 } else { 0 }..]);
    }
    bytes
}

/// Spoilt in up to three places, often in its header.
fn spoil(random: &mut Random, bytes: &mut Vec<u8>) {
    for _ in 0..random.below(4) {
        let end = if random.below(2) == 0 { bytes.len() } else { bytes.len().min(16) };
        let place = random.below(end + 1);
        let byte = [b'0', b'9', b' ', b'#', b'\n', b'x', 0, 255][random.below(8)];
        match random.below(4) {
            0 => bytes.truncate(place),
            1 => bytes.insert(place, byte),
            _ if place == bytes.len() => bytes.push(byte),
            2 => bytes[place] = byte,
            _ => drop(bytes.remove(place)),
        }
    }
}

#[test]
fn the_same_maps_are_taken_and_every_refusal_has_a_reason() {
    let mut random = Random::new(39);
    let (mut inputs, mut wanted) = (Vec::new(), Vec::new());
    for _ in 0..20_000 {
        let mut bytes = picture(&mut random);
        spoil(&mut random, &mut bytes);
        if bytes.is_empty() {
            continue;
        }
        inputs.extend_from_slice(&(bytes.len() as u32).to_le_bytes());
        inputs.extend_from_slice(&(1 + random.below(40) as u32).to_le_bytes());
        inputs.extend_from_slice(&bytes);
        let map = accepted(&[b"1\n", &bytes[..]].concat());
        wanted.push((map.map(|(w, h, heights)| heights.iter().fold(format!("{w} {h}"), |line, n| format!("{line} {n}"))), bytes));
    }
    let mut child = Command::new(program()).stdin(Stdio::piped()).stdout(Stdio::piped()).spawn().expect("the program starts");
    let mut stdin = child.stdin.take().expect("it has an input");
    let writing = std::thread::spawn(move || stdin.write_all(&inputs).expect("the inputs are read"));
    let said = String::from_utf8_lossy(&child.wait_with_output().expect("it ends").stdout).to_string();
    writing.join().expect("the inputs are written");
    let lines: Vec<&str> = said.lines().collect();
    assert_eq!(lines.len(), wanted.len());
    for ((map, bytes), line) in wanted.iter().zip(&lines) {
        match map {
            Some(map) => assert_eq!(map, line, "{}", String::from_utf8_lossy(bytes)),
            None => assert!(line.contains(char::is_alphabetic), "{line}: {}", String::from_utf8_lossy(bytes)),
        }
    }
    let taken = wanted.iter().filter(|(map, _)| map.is_some()).count();
    assert!(taken > 4_000 && taken < 16_000, "{taken} of {} are taken", wanted.len());
}
