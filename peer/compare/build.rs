//! Links the archive of the first program, `libstand_c.a`.
//!
//! It stands where the first program's build leaves it, in its crate's
//! folder, or in the folder that `STAND_C_DIR` names.

use std::env;
use std::fs;
use std::path::PathBuf;

fn main() {
    println!("cargo::rerun-if-env-changed=STAND_C_DIR");
    let folder = env::var_os("STAND_C_DIR").map_or_else(own_folder, PathBuf::from);
    let archive = folder.join("libstand_c.a");
    println!("cargo::rerun-if-changed={}", archive.display());
    // The linker runs in another folder than this script: a whole path serves both.
    match fs::canonicalize(&folder) {
        Ok(folder) if archive.is_file() => {
            println!("cargo::rustc-link-search=native={}", folder.display());
            println!("cargo::rustc-link-lib=static=stand_c");
        }
        _ => println!(
            "cargo::error=the first program's archive is not built: {}",
            archive.display()
        ),
    }
}

fn own_folder() -> PathBuf {
    let package = env::var_os("CARGO_MANIFEST_DIR").unwrap_or_default();
    PathBuf::from(package).join("../../crates/stand_c/out")
}
