//! `manifest`: what cannot be read or written, and what changes during the run.

mod support;

use std::fs;
use std::os::unix::fs::PermissionsExt;
use support::sums::{fake, folder, with_bin};

#[test]
fn an_unreadable_file_and_folder() {
    let folder = folder();
    folder.folder("d/closed");
    folder.folder("open");
    folder.write("d/closed/x", &folder.read("d/a"));
    folder.run("manifest write d --force").printed("");
    let state = folder.state("d/MANIFEST.sha256");
    let bits = |name: &str, bits| {
        fs::set_permissions(folder.path(name), PermissionsExt::from_mode(bits)).expect("bits");
    };
    bits("open", 0o777);
    folder.run_as_nobody("manifest verify -q d").quiet();
    for closed in ["d/b", "d/closed"] {
        bits(closed, 0);
        let denied = format!("{closed}: cannot be read: Permission denied");
        let run = folder.run_as_nobody("manifest write d -o open/new");
        run.failed(&denied);
        run.failed("open/new: not written: 1 of the names below the folder cannot be read");
        assert!(!folder.path("open/new").exists());
        let run = folder.run_as_nobody("manifest verify -q d");
        run.failed(&denied);
        let none = run.notes().contains(" 0 missing, 0 new, ");
        assert!(none, "{}", run.story());
        bits(closed, 0o755);
    }
    assert_eq!(folder.state("d/MANIFEST.sha256"), state);
}

#[test]
fn a_pipe_and_what_is_no_folder() {
    let folder = folder();
    let state = folder.state("d/MANIFEST.sha256");
    folder.bash("mkfifo d/pipe").ended(0);
    let pipe = "d/pipe: cannot be read: it is a pipe, socket or device, not a file";
    folder.run("manifest write d --force").failed(pipe);
    folder.run("manifest verify d").failed(pipe);
    assert_eq!(folder.state("d/MANIFEST.sha256"), state);
    folder.folder("-");
    let others = [
        ("missing", "No such file"),
        ("d/a", "it is not a folder"),
        ("-", "it is standard input"),
    ];
    for (other, why) in others {
        for act in ["write", "verify"] {
            let run = folder.run(&format!("manifest {act} {other}"));
            run.failed(&format!("radar-archive: {other}: cannot be read: {why}"));
        }
    }
}

#[test]
fn a_file_that_disappears_or_changes_during_the_run() {
    let folder = folder();
    let state = folder.state("d/MANIFEST.sha256");
    let b = folder.read("d/b");
    fake(&folder, "[ -e asked ] && rm d/b; touch asked; exec $real");
    for call in ["manifest write d --force", "manifest verify -q d"] {
        folder.write("d/b", &b);
        let _ = fs::remove_file(folder.path("asked"));
        with_bin(&folder, call).failed("d/b: cannot be read: No such file or directory");
    }
    folder.write("d/b", &b);
    fs::File::create(folder.path("d/long"))
        .and_then(|file| file.set_len(168_000_000))
        .expect("a long file");
    fake(&folder, "printf x >> d/long; exec $real");
    let changed = "d/long: cannot be read: it changed while it was read; ";
    with_bin(&folder, "manifest write d --force").failed(changed);
    assert_eq!(folder.state("d/MANIFEST.sha256"), state);
    folder.run("manifest write d --force").refused(2);
    folder.run("manifest verify -q d").printed("").quiet();
    with_bin(&folder, "manifest verify -q d").failed(changed);
    let sum = folder.bash("cd d && sha256sum long").text();
    folder.run("manifest write d --force").ended(1);
    let manifest = String::from_utf8(folder.read("d/MANIFEST.sha256")).expect("text");
    assert!(
        manifest.contains(&format!("# refused 2 kind\n{sum}")),
        "{manifest}"
    );
}

#[test]
fn a_full_disk_leaves_the_old_manifest() {
    let folder = folder();
    for number in 0..300 {
        folder.write(format!("d/{number}"), b"refused");
    }
    let state = folder.state("d/MANIFEST.sha256");
    let limit = "trap '' XFSZ; ulimit -f 8; exec radar-archive manifest write d";
    for (call, target) in [("--force", "d/MANIFEST.sha256"), ("-o new", "new")] {
        let names = folder.names();
        let run = folder.bash(&format!("{limit} {call}"));
        run.failed(&format!("radar-archive: {target}: cannot be written: "));
        assert_eq!(folder.names(), names);
        assert_eq!(folder.state("d/MANIFEST.sha256"), state);
    }
    let left = fs::read_dir(folder.path("d")).expect("d").count();
    assert_eq!(left, 303);
    folder
        .bash("set -o pipefail; radar-archive manifest write d -o - | head -c 0")
        .ended(5);
    folder
        .bash("radar-archive manifest write d -o - > /dev/full")
        .failed("standard output");
}

#[test]
fn no_manifest_and_what_is_no_file() {
    let folder = folder();
    folder.remove("d/MANIFEST.sha256");
    let cannot = "d/MANIFEST.sha256: cannot be read: ";
    folder.run("manifest verify d").failed(cannot);
    folder.folder("d/MANIFEST.sha256");
    folder.run("manifest verify d").failed("it is a folder");
    let run = folder.run("manifest write d");
    run.failed("d/MANIFEST.sha256: is a folder, not a file");
    folder
        .run("manifest verify d -m /dev/null")
        .failed("line 1");
    let run = folder.run("manifest verify d -m /dev/zero");
    run.failed("/dev/zero: is no manifest: it has more than 1,073,741,824 bytes");
}
