//! Finds the engine's static library: in RADAR_ARCHIVE_LIB_DIR, else in the repository's target/staticlib. The build script of a
//! dependent has the folder in DEP_EXPORTS_FOLDER.

use std::env;
use std::path::PathBuf;
use std::process::exit;

const VARIABLE: &str = "RADAR_ARCHIVE_LIB_DIR";

fn main() {
    println!("cargo:rerun-if-env-changed={VARIABLE}");
    let folder = match env::var_os(VARIABLE) {
        Some(folder) => PathBuf::from(folder),
        None => {
            let here = env::var_os("CARGO_MANIFEST_DIR").map_or_else(PathBuf::new, PathBuf::from);
            here.join("../../target/staticlib")
        }
    };
    let library = folder.join("libexports.a");
    println!("cargo:rerun-if-changed={}", library.display());
    if !library.is_file() {
        eprintln!("radar-archive: {} is missing.", library.display());
        eprintln!("Run host/package/prove, or set {VARIABLE} to the folder of libexports.a.");
        exit(1);
    }
    println!("cargo:folder={}", folder.display());
    println!("cargo:rustc-link-search=native={}", folder.display());
    println!("cargo:rustc-link-lib=static=exports");
}
