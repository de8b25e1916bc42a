//! The seeds and the findings, without libFuzzer.

use std::collections::BTreeMap;
use std::path::{Path, PathBuf};

/// A path beside the crate's manifest.
fn beside(path: &str) -> PathBuf {
    Path::new(env!("CARGO_MANIFEST_DIR")).join(path)
}

/// The files of a folder by name.
fn files(folder: &str) -> BTreeMap<String, Vec<u8>> {
    std::fs::read_dir(beside(folder))
        .unwrap()
        .map(|entry| {
            let path = entry.unwrap().path();
            let name = path.file_name().unwrap().to_string_lossy().into_owned();
            (name, std::fs::read(path).unwrap())
        })
        .collect()
}

#[test]
fn the_corpus_is_the_seeds() {
    let samples =
        (1..=6).map(|kind| std::fs::read(beside(&format!("../../samples/m{kind}.radar"))));
    let samples: Result<Vec<Vec<u8>>, _> = samples.collect();
    let seeds: BTreeMap<_, _> = fuzz::seeds::all(&samples.unwrap()).into_iter().collect();
    assert_eq!(files("corpus"), seeds);
}

#[test]
fn the_corpus_shows_no_difference() {
    for input in files("corpus").values() {
        fuzz::trial(input);
    }
}

/// The corpus has 31 inputs of about 100 bytes, so this tries some 9,000.
#[test]
fn the_corpus_with_one_byte_changed_shows_no_difference() {
    for input in files("corpus").values() {
        for at in 0..input.len() {
            for change in [1, 0x80, 0xff] {
                let mut changed = input.clone();
                changed[at] = changed[at].wrapping_add(change);
                fuzz::trial(&changed);
            }
        }
    }
}

#[test]
fn the_corpus_cut_short_shows_no_difference() {
    for input in files("corpus").values() {
        for length in 0..input.len() {
            fuzz::trial(&input[..length]);
        }
    }
}
