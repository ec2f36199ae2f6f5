//! The names of include/terrain.h: each says what the library does, what the Rust wrapper says and what the documents say; and the header
//! compiles without a warning from C89 to C++20, and with one where an answer is not looked at.
use std::collections::BTreeMap;
use std::path::{Path, PathBuf};
use std::process::Command;
use terrain::{raw, Band, Shape};
use terrain_tests::built::archive;

fn root() -> PathBuf {
    Path::new(env!("CARGO_MANIFEST_DIR")).parent().expect("tests/ stands in the repository").to_path_buf()
}

fn text(path: &str) -> String {
    std::fs::read_to_string(root().join(path)).unwrap_or_else(|e| panic!("{path}: {e}"))
}

/// The names that are numbers.
fn names() -> BTreeMap<String, usize> {
    let header = text("include/terrain.h");
    let names = header.lines().filter_map(|l| l.strip_prefix("#define TERRAIN_")?.split_once(' '));
    names.filter_map(|(name, value)| Some((name.to_string(), value.parse().ok()?))).collect()
}

#[test]
fn the_limits() {
    let names = names();
    let (width, height, levels) = (names["MAX_WIDTH"], names["MAX_HEIGHT"], names["MAX_LEVELS"]);
    assert_eq!((width, height, levels), (terrain::MAX_WIDTH, terrain::MAX_HEIGHT, terrain::MAX_LEVELS));
    assert_eq!(names["MAX_ORIGIN"], usize::from(u16::MAX));
    let mut store = vec![0; names["MAX_STORE_LENGTH"]];
    let mut set_up = |w, h, l| raw::reader_set_up(&mut [0; 16], Shape::new(w, h, l), &mut store);
    assert_eq!([set_up(width, height, levels), set_up(width + 1, 1, 1), set_up(1, height + 1, 1), set_up(1, 1, levels + 1)], [0, 2, 3, 4]);
    let longest = |filter| (1..=width).flat_map(|w| (1..=levels).map(move |l| raw::store_length(Shape::new(w, 1, l).by(filter)))).max();
    assert_eq!(longest(terrain::FIVE_THREE).max(longest(terrain::NINE_SEVEN)), Some(names["MAX_STORE_LENGTH"]));
}

#[test]
fn the_filters() {
    let names = names();
    assert_eq!([names["FIVE_THREE"], names["NINE_SEVEN"]], [terrain::FIVE_THREE as usize, terrain::NINE_SEVEN as usize]);
    let lengths = [terrain::FIVE_THREE, terrain::NINE_SEVEN, 2].map(|filter| raw::store_length(Shape::new(3, 1, 2).by(filter)));
    assert_eq!(lengths, [4 * (3 + 2) + 3, 8 * (3 + 2) + 3, 0]);
    let lengths = [terrain::FIVE_THREE, terrain::NINE_SEVEN, 2].map(|filter| raw::reader_store_length(Shape::new(3, 1, 2).by(filter)));
    assert_eq!(lengths, [4 * (3 + 2), 8 * (3 + 2), 0]);
    let most = |filter| (1..10).filter(|l| raw::store_length(Shape::new(1, 1, *l).by(filter)) > 0).count();
    assert_eq!([most(terrain::FIVE_THREE), most(terrain::NINE_SEVEN)], [names["MAX_LEVELS"], names["MAX_LEVELS"] - 1]);
}

#[test]
fn bands_wants_and_lengths() {
    let names = names();
    for (name, band) in [("LL", Band::Ll), ("HL", Band::Hl), ("LH", Band::Lh), ("HH", Band::Hh)] {
        assert_eq!(names[name], band as usize);
    }
    let (mut state, mut want, row) = ([0; 16], [0; 5], [0; 4]);
    assert_eq!((names["STATE_LENGTH"], names["ROW_LENGTH"], names["WANT_LENGTH"]), (state.len(), row.len(), want.len()));
    let (mut store, mut kinds) = ([0; 8], Vec::new());
    for coefficient in [9, 65_536] {
        assert_eq!(raw::reader_set_up(&mut state, Shape::new(1, 1, 1), &mut store), 0);
        for turn in 0..3 {
            assert_eq!(raw::reader_want(&state, &mut want), 0);
            kinds.push(want[0] as usize);
            match turn {
                0 => assert_eq!(raw::reader_feed(&mut state, &mut store, &[coefficient]), if coefficient == 9 { 0 } else { 14 }),
                _ => drop(raw::reader_draw(&mut state, &mut store, &mut [0], &mut 0)),
            }
        }
    }
    let [row, draw, done, ended] = ["ROW", "DRAW", "DONE", "ENDED"].map(|kind| names[&format!("WANT_{kind}")]);
    assert_eq!(kinds, [row, draw, done, row, ended, ended]);
}

#[test]
fn turn_givers() {
    let names = names();
    let (mut turns, mut reader) = ([0; 4], 0);
    assert_eq!((names["TURNS_LENGTH"], names["READERS"]), (turns.len(), terrain::READERS));
    assert_eq!([raw::turns_set_up(&mut turns), raw::turns_give(&mut turns, &mut reader)], [0, 0]);
    assert_eq!(names["NO_READER"], reader);
    let answers = [names["READERS"] - 1, names["READERS"]].map(|n| raw::turns_mark(&mut turns, n));
    assert_eq!(answers, [0, 21]);
}

/// One version: of the header, the archive, the wrapper, the CMake example and the list of changes.
#[test]
fn the_version() {
    let version = names()["VERSION"];
    let said = format!("{}.{}.{}", version / 10_000, version / 100 % 100, version % 100);
    assert_eq!(raw::version() as usize, version);
    assert_eq!(terrain::VERSION as usize, version);
    assert!(text("include/terrain.h").contains(&format!("#define TERRAIN_VERSION_TEXT \"{said}\"\n")));
    assert!(text("bindings/rust/Cargo.toml").contains(&format!("version = \"{said}\"\n")));
    let newest = text("CHANGELOG.md").lines().find_map(|l| l.strip_prefix("## ").map(str::to_string)).expect("a version");
    assert!([said.clone(), format!("Unreleased ({said})")].contains(&newest), "CHANGELOG.md: {newest}");
    let minor = said.rsplit_once('.').expect("a patch").0.to_string();
    assert!(text("examples/cmake/CMakeLists.txt").contains(&format!("find_package(Terrain {minor} REQUIRED)")));
}

/// Compiled as that language, which is its `-x` and its `-std`: whether it passed, and what the compiler said.
fn compiled(name: &str, source: &str, compiler: &str, language: &str, standard: &str, out: &str) -> (bool, String) {
    let file = Path::new(env!("CARGO_TARGET_TMPDIR")).join(name);
    std::fs::write(&file, source).expect("written");
    let said = Command::new(compiler)
        .args(["-Wall", "-Wextra", "-Wpedantic", "-Wshadow", "-Werror", "-x", language, standard, "-I"])
        .arg(root().join("include"))
        .arg(&file)
        .args(["-x", "none"])
        .args((out != "/dev/null").then(|| archive("terrain")))
        .args(if out == "/dev/null" { vec!["-c"] } else { vec![] })
        .args(["-o", out])
        .output()
        .expect("the compiler runs");
    (said.status.success(), String::from_utf8_lossy(&said.stderr).to_string())
}

#[test]
fn every_standard() {
    let looks = "#include <terrain.h>\nint main(void) { return terrain_version() != TERRAIN_VERSION || !terrain_sentence(3); }\n";
    let unused = "#include <terrain.h>\nint main(void) { return 0; }\n";
    let drops = "#include <terrain.h>\nint main(void) { size_t a, b; terrain_band_row(1, terrain_shape_of(1, 1, 1), 1, 0, 0, &a, &b); return 0; }\n";
    let c = ["c89", "gnu89", "c99", "c11", "c17", "c2x"].map(|s| ("cc", "c", s));
    let cpp = ["c++98", "c++11", "c++14", "c++17", "c++20"].map(|s| ("c++", "c++", s));
    for (compiler, language, standard) in c.into_iter().chain(cpp) {
        let flag = format!("-std={standard}");
        for (name, source) in [("looks.c", looks), ("unused.c", unused)] {
            let (passed, said) = compiled(name, source, compiler, language, &flag, "/dev/null");
            assert!(passed, "{standard}: {name}: {said}");
        }
        let (passed, said) = compiled("drops.c", drops, compiler, language, &flag, "/dev/null");
        assert!(!passed && said.contains("ignoring return value"), "{standard}: {said}");
    }
}

/// The number that the header's comment puts beside each sentence, which `./terrain` reads, is its place in the table.
#[test]
fn every_question_has_its_sentence() {
    let header = text("include/terrain.h");
    let beside: BTreeMap<usize, String> = header
        .lines()
        .filter_map(|l| l.trim().strip_prefix('"')?.strip_suffix(" */")?.rsplit_once("/* "))
        .map(|(said, number)| (number.parse().expect("a number"), said.trim_end().trim_end_matches(['"', ',']).to_string()))
        .collect();
    let program = Path::new(env!("CARGO_TARGET_TMPDIR")).join("sentences");
    let source = "#include <stdio.h>\n#include <terrain.h>\nint main(void) { for (uint32_t n = 0; n < 100; n++) puts(terrain_sentence(n)); return 0; }\n";
    let (passed, said) = compiled("sentences.c", source, "cc", "c", "-std=c11", program.to_str().expect("a path"));
    assert!(passed, "{said}");
    let said = String::from_utf8(Command::new(&program).output().expect("it runs").stdout).expect("text");
    let none = "no question has this number";
    let given: BTreeMap<usize, String> = said.lines().map(str::to_string).enumerate().filter(|(_, s)| s != none).collect();
    assert_eq!(said.lines().count(), 100);
    assert_eq!(given, beside);
    // the advice has a row for each question, and no other
    let advice = text("docs/STUDIOS.md");
    let rows = advice.lines().filter_map(|l| l.strip_prefix("| ")?.split_once(' ')?.0.parse::<usize>().ok());
    let mut numbers: Vec<usize> = rows.filter(|n| *n < 60).collect();
    numbers.sort();
    assert_eq!(numbers, given.into_keys().skip(1).collect::<Vec<_>>());
}

/// The questions' names: a number each that has a sentence, and none is missing of those that document 01 and the filter brought.
#[test]
fn the_questions() {
    let questions = text("include/terrain.h");
    let questions = questions.split_once("/* The questions: ").expect("the questions").1.split_once("\n\n").expect("their end").0;
    let named: Vec<u32> = questions.lines().filter_map(|l| l.strip_prefix("#define TERRAIN_")?.split_once(' ')?.1.parse().ok()).collect();
    assert!(named.windows(2).all(|pair| pair[0] < pair[1]), "{named:?}");
    assert!((1..=22).all(|n| named.contains(&n)), "{named:?}");
    let advice = text("docs/STUDIOS.md");
    assert!(named.iter().all(|n| advice.contains(&format!("\n| {n} | "))), "{named:?}");
    assert_eq!(names()["NO_MAP"], 14);
}

/// The wrappers that have no C header to ask keep the same sentences.
#[test]
fn the_sentences_of_the_wrappers() {
    let header = text("include/terrain.h");
    let table = header.split_once("sentences[] = {").expect("the table").1.split_once("};").expect("its end").0;
    let wanted: Vec<&str> = table.lines().filter_map(|l| l.trim().strip_prefix('"')?.split_once('"').map(|(s, _)| s)).collect();
    assert_eq!(wanted.len(), 23);
    let wrappers = [("python/terrain.py", "_SENTENCES = ["), ("js/terrain.mjs", "const SENTENCES = ["), ("csharp/Terrain.cs", "string[] Sentences =")];
    for (file, begin) in wrappers {
        let wrapper = text(&format!("bindings/{file}"));
        let lines = wrapper.split_once(begin).expect("the table").1.lines().map(str::trim).skip_while(|l| !l.starts_with(['"', '\'']));
        let said: Vec<&str> = lines.take_while(|l| l.starts_with(['"', '\''])).map(|l| &l[1..l.len() - 2]).collect();
        assert_eq!(said, wanted, "{file}");
    }
}
