//! Writes the seeds: fuzz-seeds FOLDER-OF-SAMPLES FOLDER.

use std::path::PathBuf;

fn main() -> std::io::Result<()> {
    let folders: Vec<PathBuf> = std::env::args_os().skip(1).map(PathBuf::from).collect();
    let [samples, out] = folders.as_slice() else {
        panic!("usage: fuzz-seeds FOLDER-OF-SAMPLES FOLDER");
    };
    let samples: Result<Vec<Vec<u8>>, _> = (1..=6)
        .map(|kind| std::fs::read(samples.join(format!("m{kind}.radar"))))
        .collect();
    std::fs::create_dir_all(out)?;
    for (name, bytes) in fuzz::seeds::all(&samples?) {
        std::fs::write(out.join(name), bytes)?;
    }
    Ok(())
}
