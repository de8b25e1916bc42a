//! `manifest`: which files are listed, under which names, and `sha256sum -c` on the same file.

mod support;

use std::ffi::{OsStr, OsString};
use std::os::unix::ffi::OsStrExt;
use std::os::unix::fs::symlink;
use support::files::{with_field, Picture, SETTINGS};
use support::{Folder, Outcome};

/// Names that lines have to escape, or that a program may take for something else.
const NAMES: [&[u8]; 18] = [
    b" a ",
    b"#",
    b"# picture",
    b"*",
    b"-",
    b"--check",
    b"-c",
    b"..a",
    b"a b",
    b"a\nb",
    b"a\r",
    b"a\tb",
    b"back\\slash",
    b"back\\nslash",
    b"\\",
    b"\n",
    b"\xff\xfe",
    b"\xc3\xa9",
];

/// A folder with an empty folder `d`.
fn with_d() -> Folder {
    let folder = Folder::new();
    folder.folder("d");
    folder
}

/// The path of a name in the folder `d`.
fn in_d(name: &[u8]) -> OsString {
    OsStr::from_bytes(&[b"d/", name].concat()).to_owned()
}

/// The file of the sample picture in kind 1.
fn file() -> Vec<u8> {
    Picture::sample().file(SETTINGS[0])
}

/// Runs sha256sum itself over the manifest; its standard input is empty.
fn sha256sum(folder: &Folder) -> Outcome {
    folder.bash("cd d && sha256sum --check --strict MANIFEST.sha256 < /dev/null")
}

/// The last lines of the manifest, each of a file, without the sum.
fn listed(folder: &Folder, manifest: &str) -> Vec<String> {
    let text = String::from_utf8_lossy(&folder.read(manifest)).into_owned();
    let lines = text.lines().filter(|line| !line.starts_with('#'));
    let paths = lines.filter_map(|line| line.split_once("  "));
    paths.map(|(_, path)| path.to_string()).collect()
}

#[test]
fn names_of_any_bytes() {
    let folder = with_d();
    for name in NAMES {
        folder.write(in_d(name), &file());
    }
    folder.run("manifest write d --all").printed("");
    folder.run("manifest verify -q d").printed("").quiet();
    let run = sha256sum(&folder);
    assert_eq!(run.ended(0).text().matches(": OK\n").count(), NAMES.len());
    let other = with_field(&file(), file().len() - 4, 301);
    for name in NAMES {
        folder.write(in_d(name), &other);
        let run = sha256sum(&folder);
        assert_eq!(run.ended(1).text().matches(": FAILED\n").count(), 1);
        let run = folder.run("manifest verify -q d");
        run.ended(1);
        let text = run.text();
        assert!(text.ends_with(": changed, another picture\n"), "{text}");
        assert_eq!(text.lines().count(), 1, "{text}");
        folder.write(in_d(name), &file());
    }
    assert_eq!(sha256sum(&folder).ended(0).notes(), "");
}

#[test]
fn the_lines_are_those_of_sha256sum() {
    let folder = with_d();
    for name in NAMES {
        folder.write(in_d(name), &file());
    }
    folder.run("manifest write d --all -o ours").printed("");
    let theirs = "cd d && sha256sum -- ./- * ..a | LC_ALL=C sort";
    let theirs = folder
        .bash(&theirs.replace(" * ", " [!-]* --check -c "))
        .out;
    let ours = folder.bash("grep -av '^#' ours | LC_ALL=C sort").out;
    assert_eq!(ours, theirs);
}

#[test]
fn in_the_order_of_the_walk() {
    let folder = with_d();
    folder.folder("d/b/c");
    for name in ["d/b.x", "d/b/2", "d/b/10", "d/b/c/y", "d/A", "d/a"] {
        folder.write(name, &file());
    }
    folder.run("manifest write d").printed("");
    let order = ["A", "a", "b/10", "b/2", "b/c/y", "b.x"];
    assert_eq!(listed(&folder, "d/MANIFEST.sha256"), order);
    let told: String = order
        .iter()
        .map(|name| format!("d/{name}: unchanged\n"))
        .collect();
    for call in [
        "manifest verify d",
        "manifest verify d -m d/MANIFEST.sha256",
    ] {
        folder.run(call).printed(&told);
    }
}

#[test]
fn a_folder_by_any_of_its_names() {
    let folder = with_d();
    folder.folder("d/sub");
    folder.write("d/x", &file());
    folder.write("d/sub/y", &file());
    symlink("d", folder.path("link")).expect("a link");
    let whole = folder.path("d").into_os_string();
    let names = ["d", "d/", "./d", "d//", "d/.", "link", "link/", "d/sub/.."];
    for name in names.map(OsString::from).into_iter().chain([whole]) {
        let call = |act: &str| [OsString::from("manifest"), act.into(), name.clone()];
        folder.run_all(call("write")).printed("");
        assert_eq!(listed(&folder, "d/MANIFEST.sha256"), ["sub/y", "x"]);
        assert_eq!(
            folder
                .run_all(call("verify"))
                .ended(0)
                .text()
                .lines()
                .count(),
            2
        );
        folder.remove("d/MANIFEST.sha256");
    }
    folder
        .bash("cd d && radar-archive manifest write .")
        .ended(0);
    folder
        .bash("cd d && radar-archive manifest verify -q .")
        .quiet();
    folder.run("manifest verify -q d").quiet();
}

#[test]
fn hidden_names() {
    let folder = with_d();
    folder.folder("d/.git");
    for name in ["d/.git/x", "d/.y", "d/z"] {
        folder.write(name, &file());
    }
    let run = folder.run("manifest write d");
    let passed =
        "1 file: 1 with a picture, 0 refused; 2 hidden names passed over (--all lists them)\n";
    assert!(run.notes().ends_with(passed), "{}", run.story());
    let run = folder.run("manifest verify d");
    run.printed("d/z: unchanged\n");
    assert!(run
        .notes()
        .ends_with("; 2 hidden names passed over (--all compares them)\n"));
    let run = folder.run("manifest verify --all d");
    assert_eq!(run.ended(1).text().matches(": new, ").count(), 2);
    folder.run("manifest write --all --force d").printed("");
    assert_eq!(listed(&folder, "d/MANIFEST.sha256"), [".git/x", ".y", "z"]);
    folder.run("manifest verify -q d").printed("").quiet();
    folder.remove("d/.git/x");
    let run = folder.run("manifest verify -q d");
    assert!(run.ended(1).text().starts_with("d/.git/x: missing, "));
}

#[test]
fn the_manifest_and_its_temporary_files_are_not_listed() {
    let folder = with_d();
    folder.folder("d/sub");
    folder.write("d/x", &file());
    let left = [
        "d/.MANIFEST.sha256.radar-archive-1.tmp",
        "d/sub/.sums.radar-archive-1-2.tmp",
    ];
    for name in left {
        folder.write(name, b"left over");
    }
    folder
        .run("manifest write --all d -o d/sub/sums")
        .printed("");
    assert_eq!(listed(&folder, "d/sub/sums"), ["x"]);
    for name in left {
        folder.write(name, b"left over");
    }
    folder
        .run("manifest verify --all -q d -m d/sub/sums")
        .quiet();
    folder.run("manifest write --all d").ended(1);
    let other = [".sums.radar-archive-1-2.tmp", "sums"];
    let other = other.map(|name| format!("sub/{name}"));
    assert_eq!(
        listed(&folder, "d/MANIFEST.sha256"),
        [&other[..], &["x".into()]].concat()
    );
    folder.remove("d/MANIFEST.sha256");
    symlink("sub/sums", folder.path("d/MANIFEST.sha256")).expect("a link");
    folder.run("manifest write --all --force d").ended(0);
    assert_eq!(listed(&folder, "d/sub/sums"), ["x"]);
    folder.run("manifest verify --all -q d").quiet();
}

#[test]
fn a_copy_of_the_manifest_in_another_place() {
    let folder = with_d();
    folder.write("d/x", &file());
    folder.run("manifest write d").printed("");
    folder.write("copy", &folder.read("d/MANIFEST.sha256"));
    folder.run("manifest verify -q d -m copy").quiet();
    folder
        .run_on(&folder.read("copy"), "manifest verify -q d -m -")
        .quiet();
    folder.write("d/MANIFEST.sha256", b"damaged");
    folder.run("manifest verify -q d -m copy").quiet();
    folder.run("manifest verify -q d").failed("line 1");
    folder.remove("d/MANIFEST.sha256");
    folder.run("manifest verify -q d -m copy").quiet();
    folder
        .run("manifest verify d")
        .failed("d/MANIFEST.sha256: cannot be read: ");
}

/// A folder `d` with a link to a file outside, links to folders, and a manifest.
fn with_links() -> Folder {
    let folder = with_d();
    folder.folder("elsewhere");
    folder.write("elsewhere/x", &file());
    folder.write("elsewhere/y", b"refused");
    let links = [
        ("../elsewhere/x", "file"),
        ("../elsewhere", "folder"),
        (".", "loop"),
    ];
    for (to, name) in links {
        symlink(to, folder.path("d").join(name)).expect("a link");
    }
    let run = folder.run("manifest write d");
    run.printed("");
    let note = "d/folder: a symbolic link to a folder, not followed\n";
    assert!(run.notes().contains(note), "{}", run.story());
    folder
}

#[test]
fn links_to_files_are_followed_and_links_to_folders_are_not() {
    let folder = with_links();
    assert_eq!(listed(&folder, "d/MANIFEST.sha256"), ["file"]);
    folder.run("manifest verify -q d").printed("").quiet();
    let other = Picture::sample().file(SETTINGS[1]);
    folder.write("elsewhere/x", &other);
    let run = folder.run("manifest verify -q d");
    let told = run.ended(0).text();
    assert!(told.starts_with("d/file: re-encoded, "), "{told}");
}

#[test]
fn a_link_that_leads_nowhere_cannot_be_read() {
    let folder = with_links();
    let state = folder.state("d/MANIFEST.sha256");
    folder.remove("elsewhere/x");
    let cannot = "d/file: cannot be read: ";
    let run = folder.run("manifest verify d");
    run.failed(cannot);
    let summary = " 0 missing, 0 new, 1 not read\n";
    assert!(run.notes().ends_with(summary), "{}", run.story());
    folder.run("manifest write d --force").failed(cannot);
    let run = folder.run("manifest write d -o new");
    run.failed("new: not written: 1 of the names");
    assert_eq!(folder.state("d/MANIFEST.sha256"), state);
    assert!(!folder.path("new").exists());
}
