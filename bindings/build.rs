//! Links libchandrulek.a, and says what to do where it is not there.

use std::env;
use std::path::{Path, PathBuf};
use std::process::exit;

/// The environment variable that names the archive's folder.
const FOLDER: &str = "CHANDRULEK_LIB";
const ARCHIVE: &str = "libchandrulek.a";

fn main() {
    println!("cargo:rerun-if-env-changed={FOLDER}");
    let folder = match env::var_os(FOLDER) {
        Some(folder) => PathBuf::from(folder),
        None => Path::new(&env::var_os("CARGO_MANIFEST_DIR").unwrap_or_default()).join("../target/staticlib"),
    };
    let archive = folder.join(ARCHIVE);
    println!("cargo:rerun-if-changed={}", archive.display());
    if !archive.is_file() {
        eprintln!("{ARCHIVE} is not in {}: run tools/library FOLDER and set {FOLDER}=FOLDER/lib", folder.display());
        exit(1);
    }
    println!("cargo:rustc-link-search=native={}", folder.display());
    println!("cargo:rustc-link-lib=static=chandrulek");
}
