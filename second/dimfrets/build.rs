//! Links `libdimfrets.a` from the folder in `DIMFRETS_LIB_DIR`, by default `target/staticlib` of
//! the repository. A relative folder is taken from this crate's own.

use std::path::Path;

const LIB_DIR: &str = "DIMFRETS_LIB_DIR";
const DEFAULT_LIB_DIR: &str = "../../target/staticlib";
const ARCHIVE: &str = "libdimfrets.a";

fn main() {
    let dir = std::env::var(LIB_DIR).unwrap_or_else(|_| DEFAULT_LIB_DIR.to_owned());
    let manifest_dir = std::env::var("CARGO_MANIFEST_DIR").expect("cargo names the folder");
    let dir = Path::new(&manifest_dir).join(dir);
    let archive = dir.join(ARCHIVE);
    println!("cargo:rerun-if-env-changed={LIB_DIR}");
    println!("cargo:rerun-if-changed={}", archive.display());
    if !archive.is_file() {
        println!("cargo:warning=there is no {}", archive.display());
    }
    println!("cargo:rustc-link-search=native={}", dir.display());
    println!("cargo:rustc-link-lib=static=dimfrets");
}
