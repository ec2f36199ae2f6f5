//! Where the archives and programs under test stand: all in the folder that TERRAIN_LIB names (`tools/quick/compile` fills one), else where `tools/build` puts them.
use std::path::{Path, PathBuf};

fn built(folder: &str, name: &str, made_by: &str) -> PathBuf {
    let root = Path::new(env!("CARGO_MANIFEST_DIR")).parent().expect("tests/ stands in the repository");
    let path = std::env::var_os("TERRAIN_LIB").map_or_else(|| root.join("target").join(folder), PathBuf::from).join(name);
    assert!(path.is_file(), "{} is missing: run `{made_by}`", path.display());
    path
}

pub fn archive(name: &str) -> PathBuf {
    built("staticlib", &format!("lib{name}.a"), &format!("tools/build {name}"))
}

pub fn program(name: &str) -> PathBuf {
    built("bin", name, &format!("tools/build {name}"))
}
