//! The version: one number, in the header, and what `--version` tells of the build.

mod support;

use std::fs;
use std::path::{Path, PathBuf};
use support::Folder;

/// The repository.
fn root() -> PathBuf {
    Path::new(env!("CARGO_MANIFEST_DIR")).join("../..")
}

/// A file of the repository.
fn text(path: &str) -> String {
    fs::read_to_string(root().join(path)).unwrap_or_else(|wrong| panic!("{path}: {wrong}"))
}

/// The version in the header.
fn version() -> String {
    let header = text("include/radar_archive.h");
    let quoted = header
        .lines()
        .find_map(|line| line.strip_prefix("#define RA_VERSION \""));
    let version = quoted.and_then(|rest| rest.strip_suffix('"'));
    version.expect("a version in the header").to_string()
}

/// What a line of bash prints at the repository's root, or "not known" where it fails.
fn known(script: &str) -> String {
    let folder = Folder::new();
    let run = folder.bash(&format!("cd '{}' && {script}", root().display()));
    match run.status.success() {
        true => run.text().trim_end().to_string(),
        false => "not known".to_string(),
    }
}

#[test]
fn the_version_is_the_headers_and_its_build_is_told() {
    let folder = Folder::new();
    let told = folder.run("--version");
    let commit = known(
        "[ \"$(git rev-parse --show-toplevel)\" = \"$(pwd -P)\" ] && git rev-parse --verify HEAD",
    );
    let toolchain = known(
        "cd \"${RADAR_ARCHIVE_LIB_DIR:-target/staticlib}\" && \
         sha256sum --check --status libexports.toolchain && head -n 1 libexports.toolchain",
    );
    let expected = |dirty: &str| {
        format!(
            "radar-archive {}\ncommit: {commit}{dirty}\ntoolchain: {toolchain}\n",
            version()
        )
    };
    let text = told.quiet().text();
    // A file may have changed since the build; .ci/package_test builds and looks at once.
    assert!(text == expected("") || text == expected("-dirty"), "{text}");
    folder.run("-V").printed(&text).quiet();
}

#[test]
fn every_package_of_the_host_has_the_version_of_the_header() {
    let line = format!("version = \"{}\"", version());
    let lock = text("host/Cargo.lock");
    let mut packages = 0;
    for entry in fs::read_dir(root().join("host")).expect("host") {
        let manifest = entry.expect("an entry").path().join("Cargo.toml");
        let Ok(manifest) = fs::read_to_string(manifest) else {
            continue;
        };
        let name = manifest
            .lines()
            .find(|line| line.starts_with("name = "))
            .expect("a name");
        assert!(manifest.lines().any(|other| other == line), "{name}");
        assert!(lock.contains(&format!("{name}\n{line}\n")), "{name}");
        packages += 1;
    }
    assert!(packages >= 5, "{packages} packages");
}
