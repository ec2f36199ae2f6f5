//! The pictures of `terrain bands`, built without libpng: its PNG, read by the standard's rules, has the samples of its PGM, at every number of levels; and
//! each coefficient of the independent transform has the grey that the scale of its level gives it.
use std::path::{Path, PathBuf};
use std::process::Command;
use terrain::Shape;
use terrain_tests::built::archive;
use terrain_tests::maps::forward;

fn root() -> PathBuf {
    Path::new(env!("CARGO_MANIFEST_DIR")).parent().expect("tests/ stands in the repository").to_path_buf()
}

fn made(name: &str) -> PathBuf {
    Path::new(env!("CARGO_TARGET_TMPDIR")).join(name)
}

fn number(bytes: &[u8]) -> usize {
    bytes.iter().fold(0, |n, &b| n << 8 | usize::from(b))
}

/// CRC-32 as PNG has it: the remainder of the bytes, as a polynomial, least power first.
fn crc(bytes: &[u8]) -> u32 {
    let step = |crc: u32| crc >> 1 ^ if crc & 1 == 1 { 0xedb8_8320 } else { 0 };
    !bytes.iter().fold(!0, |crc, &b| (0..8).fold(crc ^ u32::from(b), |crc, _| step(crc)))
}

fn adler(bytes: &[u8]) -> u32 {
    let (a, b) = bytes.iter().fold((1, 0), |(a, b), &byte| ((a + u32::from(byte)) % 65_521, (b + a + u32::from(byte)) % 65_521));
    b << 16 | a
}

/// Names and contents of the chunks, each with its sum.
fn chunks(mut png: &[u8]) -> Vec<(String, Vec<u8>)> {
    png = png.strip_prefix(b"\x89PNG\r\n\x1a\n").expect("the signature");
    let mut all = Vec::new();
    while !png.is_empty() {
        let length = number(&png[..4]);
        let (named, rest) = png[4..].split_at(4 + length);
        assert_eq!(number(&rest[..4]), crc(named) as usize);
        all.push((String::from_utf8(named[..4].to_vec()).expect("a name"), named[4..].to_vec()));
        png = &rest[4..];
    }
    all
}

/// What stored blocks hold (RFC 1950 and 1951).
fn inflated(zlib: &[u8]) -> Vec<u8> {
    assert!(zlib[0] == 0x78 && number(&zlib[..2]) % 31 == 0 && zlib[1] & 0x20 == 0, "the header");
    let (mut rest, mut all) = (&zlib[2..], Vec::new());
    loop {
        let (last, length) = (rest[0], u16::from_le_bytes([rest[1], rest[2]]));
        assert!(last <= 1, "a stored block");
        assert_eq!(u16::from_le_bytes([rest[3], rest[4]]), !length);
        let (block, after) = rest[5..].split_at(usize::from(length));
        all.extend_from_slice(block);
        rest = after;
        if last == 1 {
            assert_eq!((rest.len(), number(rest)), (4, adler(&all) as usize));
            return all;
        }
    }
}

/// Width, height and samples, two bytes each.
fn png_samples(png: &[u8]) -> (usize, usize, Vec<u8>) {
    let all = chunks(png);
    let names: Vec<&str> = all.iter().map(|(name, _)| name.as_str()).collect();
    assert!(names[0] == "IHDR" && names[names.len() - 1] == "IEND" && names[1..names.len() - 1].iter().all(|&n| n == "IDAT"));
    let form = &all[0].1;
    assert_eq!(form[8..], [16, 0, 0, 0, 0], "16 bits, grey, deflate, filters by row, not interlaced");
    let (width, height) = (number(&form[..4]), number(&form[4..8]));
    let rows = inflated(&all[1..all.len() - 1].iter().flat_map(|(_, data)| data.clone()).collect::<Vec<u8>>());
    assert_eq!(rows.len(), height * (1 + 2 * width));
    assert!(rows.chunks(1 + 2 * width).all(|row| row[0] == 0), "no filter");
    (width, height, rows.chunks(1 + 2 * width).flat_map(|row| row[1..].to_vec()).collect())
}

/// The command, compiled without a warning and without libpng.
fn program(name: &str) -> PathBuf {
    let program = made(name);
    let sources = std::fs::read_dir(root().join("command")).expect("the command").map(|f| f.expect("a file").path());
    let compiled = Command::new("cc")
        .args(["-std=c11", "-D_GNU_SOURCE", "-O2", "-Wall", "-Wextra", "-Wshadow", "-Werror", "-I"])
        .arg(root().join("include"))
        .args(sources.filter(|f| f.extension().is_some_and(|e| e == "c") && !f.ends_with("png_libpng.c") && !f.ends_with("pack_deflate.c")))
        .arg(archive("terrain"))
        .args(["-lm", "-o"])
        .arg(&program)
        .status()
        .expect("cc runs");
    assert!(compiled.success());
    program
}

/// The picture of a map, and what was written with it.
fn picture(program: &Path, levels: usize, map: &Path, name: &str) -> (Vec<u8>, String) {
    let picture = made(name);
    let ran = Command::new(program).arg("bands").arg(levels.to_string()).arg(map).arg(&picture).output().expect("bands runs");
    assert!(ran.status.success());
    (std::fs::read(picture).expect("a picture"), String::from_utf8(ran.stdout).expect("text"))
}

#[test]
fn a_png_has_the_samples_of_the_pgm() {
    let program = program("bands");
    let (one, wide) = (made("one.pgm"), made("wide.pgm"));
    std::fs::write(&one, b"P5\n1 1\n65535\n\x12\x34").expect("written");
    let samples: Vec<u8> = (0..2 * 3 * 2_049u32).map(|i| (i * i % 251) as u8).collect();
    std::fs::write(&wide, [b"P5\n2049 3\n65535\n", &samples[..]].concat()).expect("written");
    for map in [root().join("examples/hill.pgm"), one, wide] {
        for levels in [1, 3, 5] {
            let [png, pgm] = ["picture.png", "picture.pgm"].map(|name| picture(&program, levels, &map, name).0);
            let (width, height, samples) = png_samples(&png);
            assert_eq!(pgm, [format!("P5\n{width} {height}\n65535\n").as_bytes(), &samples].concat());
        }
    }
}

/// The hill: seven pixels a number, of which the first three of a band's box may be its border or its name.
#[test]
fn each_number_has_its_grey() {
    let (width, height, levels, side) = (129, 97, 3, 7);
    let map = std::fs::read(root().join("examples/hill.pgm")).expect("the map");
    let samples = map.strip_prefix(b"P5\n129 97\n65535\n").expect("its header");
    let heights: Vec<u16> = samples.chunks_exact(2).map(|b| u16::from_be_bytes([b[0], b[1]])).collect();
    let plane = forward(&heights, Shape::new(width, height, levels));
    let (pgm, said) = picture(&program("bands-of-the-hill"), levels, &root().join("examples/hill.pgm"), "greys.pgm");
    let pixels = pgm.strip_prefix(format!("P5\n{} {}\n65535\n", width * side, height * side).as_bytes()).expect("its header");
    let pixel = |x: usize, y: usize| i64::from(u16::from_be_bytes([pixels[2 * (y * width * side + x)], pixels[2 * (y * width * side + x) + 1]]));

    let (mut w, mut h) = (width, height);
    for level in 1..=levels {
        let (low_w, low_h) = (w.div_ceil(2), h.div_ceil(2));
        let detail: Vec<(usize, usize)> = (0..h).flat_map(|y| (0..w).map(move |x| (x, y))).filter(|&(x, y)| x >= low_w || y >= low_h).collect();
        let mut sizes: Vec<i32> = detail.iter().map(|&(x, y)| plane[y * width + x].abs()).collect();
        sizes.sort();
        let most = sizes[sizes.len() - 1 - sizes.len() / 100]; // one in a hundred may be beyond it
        let beyond = sizes.iter().filter(|&&s| s > most).count();
        let line = format!("HL{level}, LH{level} and HH{level}: middle grey is 0, black is -{most} and white {most} ({beyond} beyond)");
        assert!(said.lines().any(|l| l == line), "{line}: {said}");
        for (x, y) in detail {
            let name = 6; // numbers that a name may hide
            if (x < name || (low_w..low_w + name).contains(&x)) && (y < name || (low_h..low_h + name).contains(&y)) {
                continue;
            }
            let n = plane[y * width + x];
            let grey = 32_768 + i64::from(n.signum()) * (32_767 * i64::from(n.abs().min(most)) / i64::from(most));
            let got = pixel(x * side + side - 1, y * side + side - 1);
            assert_eq!(got, grey, "level {level}, column {x}, row {y}: {n}");
        }
        // the border stands between the bands
        assert_eq!([pixel(low_w * side, 60), pixel(60, low_h * side)], [65_535; 2]);
        (w, h) = (low_w, low_h);
    }
}
