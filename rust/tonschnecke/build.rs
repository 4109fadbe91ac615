//! Links the archive: `libtonschnecke.a` in `TONSCHNECKE_LIB_DIR`, else in `../../build`.
//! A relative folder counts from this file's own.

use std::env;
use std::path::PathBuf;

fn main() {
    let manifest = PathBuf::from(env::var_os("CARGO_MANIFEST_DIR").expect("set by cargo"));
    let folder = env::var_os("TONSCHNECKE_LIB_DIR").map_or_else(
        || manifest.join("../../build"),
        |given| manifest.join(given),
    );
    let archive = folder.join("libtonschnecke.a");
    println!("cargo::rerun-if-env-changed=TONSCHNECKE_LIB_DIR");
    println!("cargo::rerun-if-changed={}", archive.display());
    if !archive.is_file() {
        println!(
            "cargo::error=the proved library is missing, {}: `make archive` in Tonschnecke's folder builds it \
             in build/; if it stands elsewhere, set TONSCHNECKE_LIB_DIR to its folder",
            archive.display()
        );
    }
    println!("cargo::rustc-link-search=native={}", folder.display());
    println!("cargo::rustc-link-lib=static=tonschnecke");
}
