//! Links libengine_c.a and libcutter_c.a of this repository's target/staticlib, which `tools/build` writes, or those of the folder
//! MEWIKOFU_ARCHIVE_FOLDER. `cargo check` needs neither, so a missing one is only told of here; rustc stops where it would link it.

use std::path::{Path, PathBuf};

fn main() {
    println!("cargo:rerun-if-env-changed=MEWIKOFU_ARCHIVE_FOLDER");
    let folder = match std::env::var_os("MEWIKOFU_ARCHIVE_FOLDER") {
        Some(folder) => PathBuf::from(folder),
        None => Path::new(env!("CARGO_MANIFEST_DIR")).join("../../target/staticlib"),
    };
    println!("cargo:rustc-link-search=native={}", folder.display());
    for name in ["engine_c", "cutter_c"] {
        let archive = folder.join(format!("lib{name}.a"));
        println!("cargo:rerun-if-changed={}", archive.display());
        if !archive.exists() {
            println!(
                "cargo:warning={} is missing: run `tools/build {name}` in the repository",
                archive.display()
            );
        }
        println!("cargo:rustc-link-lib=static={name}");
    }
}
