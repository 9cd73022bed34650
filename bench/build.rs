//! Links the older archives of the folder MEWIKOFU_OLDER_RENAMED, whose symbols bench/run has renamed, and sets the cfg `older`. Without it there are none.

use std::path::PathBuf;

fn main() {
    println!("cargo:rustc-check-cfg=cfg(older)");
    println!("cargo:rerun-if-env-changed=MEWIKOFU_OLDER_RENAMED");
    let Some(folder) = std::env::var_os("MEWIKOFU_OLDER_RENAMED").map(PathBuf::from) else {
        return;
    };
    println!("cargo:rustc-cfg=older");
    println!("cargo:rustc-link-search=native={}", folder.display());
    for name in ["older_engine_c", "older_cutter_c"] {
        let archive = folder.join(format!("lib{name}.a"));
        println!("cargo:rerun-if-changed={}", archive.display());
        println!("cargo:rustc-link-lib=static={name}");
    }
}
