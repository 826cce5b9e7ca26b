//! Finds the archive of the proved library, beside this file or by `RELATIVE_PATH_LIB_DIR`.

use std::env;
use std::path::PathBuf;

/// The archive's file name.
const ARCHIVE: &str = "librelative_path.a";

/// The variable that names the folder with the archive.
const FOLDER: &str = "RELATIVE_PATH_LIB_DIR";

fn main() {
    println!("cargo:rerun-if-env-changed={FOLDER}");
    println!("cargo:rerun-if-changed=build.rs");
    let folder = env::var_os(FOLDER)
        .or_else(|| env::var_os("CARGO_MANIFEST_DIR"))
        .map(PathBuf::from)
        .expect("cargo sets CARGO_MANIFEST_DIR");
    let archive = folder.join(ARCHIVE);
    if !archive.is_file() {
        eprintln!(
            "{} isn't there: run `tools/bindings --archive FOLDER` at the top of the repository, and set {FOLDER} to FOLDER.",
            archive.display()
        );
        std::process::exit(1);
    }
    println!("cargo:rerun-if-changed={}", archive.display());
    println!("cargo:rustc-link-search=native={}", folder.display());
    println!("cargo:rustc-link-lib=static=relative_path");
}
