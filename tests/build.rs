//! Links the static library that only the tests and the benchmark call; the wrapper links libterrain.a. The tests call no compiled code but
//! theirs. TERRAIN_LIB names another folder for both.
use std::path::{Path, PathBuf};

fn main() {
    let root = Path::new(env!("CARGO_MANIFEST_DIR")).parent().expect("tests/ stands in the repository");
    println!("cargo:rerun-if-env-changed=TERRAIN_LIB");
    let built = std::env::var_os("TERRAIN_LIB").map_or(root.join("target").join("staticlib"), PathBuf::from);
    for name in ["terrain", "test_exports"] {
        let archive = built.join(format!("lib{name}.a"));
        assert!(archive.is_file(), "{} is missing: run `tools/build {name}`", archive.display());
        println!("cargo:rerun-if-changed={}", archive.display());
    }
    println!("cargo:rustc-link-search=native={}", built.display());
    println!("cargo:rustc-link-lib=static=test_exports");
}
