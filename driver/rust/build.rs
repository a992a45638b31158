//! Links libstaffripple.a from the folder in STAFFRIPPLE_LIB, or else from the
//! one that the file `library` names: where it is built, or installed.

use std::env;
use std::path::{Path, PathBuf};

fn main() {
    println!("cargo::rerun-if-env-changed=STAFFRIPPLE_LIB");
    println!("cargo::rerun-if-changed=library");
    let folder = env::var_os("STAFFRIPPLE_LIB").map_or_else(named, PathBuf::from);
    let library = folder.join("libstaffripple.a");
    println!("cargo::rerun-if-changed={}", library.display());
    if library.is_file() {
        println!("cargo::rustc-link-search=native={}", folder.display());
        println!("cargo::rustc-link-lib=static=staffripple");
    } else {
        let missing = library.display();
        println!(
            "cargo::error=no {missing}: run `make -C driver`, or set STAFFRIPPLE_LIB to its folder"
        );
    }
}

fn named() -> PathBuf {
    Path::new(env!("CARGO_MANIFEST_DIR")).join(include_str!("library").trim_end())
}
