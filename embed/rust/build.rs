//! Links the proved static library, which `embed/build` makes below the repository's target folder; another folder that has it is
//! named by BUZORINDE_LIBRARY.

use std::env;
use std::path::{Path, PathBuf};
use std::process::exit;

fn main() {
    let here = env::var("CARGO_MANIFEST_DIR").expect("cargo sets the folder of the crate");
    let root = Path::new(&here).join("../..");
    let folder = env::var_os("BUZORINDE_LIBRARY")
        .map_or_else(|| root.join("target/library"), PathBuf::from);
    let library = folder.join("libbuzorinde.a");
    println!("cargo:rerun-if-env-changed=BUZORINDE_LIBRARY");
    println!("cargo:rerun-if-changed={}", library.display());
    if !library.is_file() {
        eprintln!("There is no {}.", library.display());
        eprintln!(
            "Run `embed/build` in {}, or let BUZORINDE_LIBRARY name a folder that has libbuzorinde.a.",
            root.display()
        );
        exit(1);
    }
    println!("cargo:rustc-link-search=native={}", folder.display());
    println!("cargo:rustc-link-lib=static=buzorinde");
}
