//! Finds what `radar-archive --version` tells: the version in include/radar_archive.h, the commit, and the toolchain that proved the engine.

use std::env;
use std::ffi::OsStr;
use std::fs;
use std::path::{Path, PathBuf};
use std::process::{exit, Command};

const HEADER: &str = "include/radar_archive.h";
const NOT_KNOWN: &str = "not known";

fn main() {
    let root = folder("CARGO_MANIFEST_DIR").join("../..");
    let root = root.canonicalize().unwrap_or(root);
    let library = folder("DEP_EXPORTS_FOLDER");
    println!("cargo:rerun-if-changed=build.rs");
    tell("VERSION", &version(&root));
    tell("COMMIT", commit(&root).as_deref().unwrap_or(NOT_KNOWN));
    tell(
        "TOOLCHAIN",
        toolchain(&library).as_deref().unwrap_or(NOT_KNOWN),
    );
}

/// The folder that cargo names in a variable.
fn folder(variable: &str) -> PathBuf {
    env::var_os(variable).map_or_else(PathBuf::new, PathBuf::from)
}

/// Hands a text to the program.
fn tell(name: &str, text: &str) {
    println!("cargo:rustc-env=RADAR_ARCHIVE_{name}={text}");
}

/// Lets cargo run this script again when a file changes.
fn watch(path: &Path) {
    println!("cargo:rerun-if-changed={}", path.display());
}

/// The version that the header has.
fn version(root: &Path) -> String {
    let header = root.join(HEADER);
    watch(&header);
    let text = fs::read_to_string(&header).unwrap_or_default();
    let quoted = text
        .lines()
        .find_map(|line| line.strip_prefix("#define RA_VERSION \""));
    let Some(version) = quoted.and_then(|rest| rest.strip_suffix('"')) else {
        eprintln!(
            "command: {} has no line '#define RA_VERSION \"N.N.N\"'",
            header.display()
        );
        exit(1);
    };
    version.to_string()
}

/// The commit of the repository, with "-dirty" where a file of it has changed since.
fn commit(root: &Path) -> Option<String> {
    let top = run(root, "git", ["rev-parse", "--show-toplevel"])?;
    if Path::new(top.trim_end()).canonicalize().ok()? != root {
        return None;
    }
    for name in ["HEAD", "logs/HEAD"] {
        let path = root.join(run(root, "git", ["rev-parse", "--git-path", name])?.trim_end());
        if path.exists() {
            watch(&path);
        }
    }
    let files = run(root, "git", ["ls-files", "-z"])?;
    files
        .split_terminator('\0')
        .for_each(|file| watch(&root.join(file)));
    let commit = run(root, "git", ["rev-parse", "--verify", "HEAD"])?;
    let status = [
        "--no-optional-locks",
        "status",
        "--porcelain",
        "--untracked-files=no",
    ];
    let dirty = if run(root, "git", status)?.is_empty() {
        ""
    } else {
        "-dirty"
    };
    Some(format!("{}{dirty}", commit.trim_end()))
}

/// The toolchain that proved the library, by the note that host/package/prove writes beside it; nothing where the note is of another.
fn toolchain(folder: &Path) -> Option<String> {
    let note = folder.join("libexports.toolchain");
    watch(if note.exists() { &note } else { folder });
    run(
        folder,
        "sha256sum",
        ["--check", "--status", "libexports.toolchain"],
    )?;
    let text = fs::read_to_string(&note).ok()?;
    text.lines().next().map(str::to_string)
}

/// What a program prints in a folder, if it ends well.
fn run(
    folder: &Path,
    program: &str,
    words: impl IntoIterator<Item = impl AsRef<OsStr>>,
) -> Option<String> {
    let output = Command::new(program)
        .args(words)
        .current_dir(folder)
        .output()
        .ok()?;
    let text = String::from_utf8(output.stdout).ok()?;
    output.status.success().then_some(text)
}
