//! Tries the inputs of folders and files, without libFuzzer.

use std::path::{Path, PathBuf};

/// The files of a folder, or the file itself.
fn inputs(path: &Path) -> Vec<PathBuf> {
    match std::fs::read_dir(path) {
        Ok(entries) => entries.flatten().map(|entry| entry.path()).collect(),
        Err(_) => vec![path.to_path_buf()],
    }
}

fn main() {
    let mut count = 0;
    for path in std::env::args_os().skip(1) {
        for input in inputs(Path::new(&path)) {
            match std::fs::read(&input) {
                Ok(bytes) => fuzz::trial(&bytes),
                Err(error) => panic!("{}: {error}", input.display()),
            }
            count += 1;
        }
    }
    println!("{count} inputs tried");
}
