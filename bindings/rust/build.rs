//! Links libterrain.a: from the folder that TERRAIN_LIB names, else from where `tools/build terrain` puts it. What keeps it from being
//! linked is one error, here, and not a page of the linker's.
use std::env::{var, var_os};
use std::path::{Path, PathBuf};

fn main() {
    println!("cargo::rerun-if-env-changed=TERRAIN_LIB");
    let folder = match var_os("TERRAIN_LIB") {
        Some(folder) => PathBuf::from(folder),
        None => Path::new(env!("CARGO_MANIFEST_DIR")).join("../../target/staticlib"),
    };
    let archive = folder.join("libterrain.a");
    println!("cargo::rerun-if-changed={}", archive.display());
    let target = var("TARGET").unwrap_or_default();
    if !(target.starts_with("x86_64-") && target.contains("-linux-")) {
        println!("cargo::error=libterrain.a is for x86-64 Linux, and this build is for {target}");
    } else if !archive.is_file() {
        let archive = archive.display();
        println!("cargo::error={archive} is missing: run `tools/build terrain`, or set TERRAIN_LIB to the folder that has it");
    } else {
        println!("cargo::rustc-link-search=native={}", folder.display());
        println!("cargo::rustc-link-lib=static=terrain");
    }
}
