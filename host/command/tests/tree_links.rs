//! Symbolic and hard links in a folder that `best` and `change` go through, and in the one that they write to.

mod support;

use std::fs;
use std::os::unix::fs::{symlink, MetadataExt};
use support::trees::{best, folder, summary};
use support::Folder;

/// Makes a symbolic link.
fn link(folder: &Folder, to: &str, name: &str) {
    symlink(to, folder.path(name)).expect("a link");
}

/// Whether a name is a symbolic link still.
fn is_link(folder: &Folder, name: &str) -> bool {
    let found = fs::symlink_metadata(folder.path(name)).expect("a name");
    found.is_symlink()
}

#[test]
fn in_place_a_file_is_taken_once_and_none_outside() {
    let folder = folder();
    folder.folder("d/.store");
    folder.write("d/.store/kept", &folder.read("d/m2.radar"));
    folder.write("outside", &folder.read("d/m1.radar"));
    folder.folder("d2");
    folder.write("d2/near", &folder.read("d/m1.radar"));
    link(&folder, "m1.radar", "d/a");
    link(&folder, "a", "d/b");
    link(&folder, ".store/kept", "d/by link");
    link(&folder, "../.store/kept", "d/sub/second way");
    link(&folder, "../outside", "d/out");
    link(&folder, "../d2/near", "d/out2");
    link(&folder, "sub", "d/folder");
    let (outside, near) = (folder.state("outside"), folder.state("d2/near"));
    let run = folder.run("best d --force");
    run.printed("");
    let notes = run.notes();
    for told in [
        "d/a: a symbolic link to the file of 'd/m1.radar', not taken twice\n",
        "d/b: a symbolic link to the file of 'd/m1.radar', not taken twice\n",
        "d/sub/second way: a symbolic link to the file of 'd/by link', not taken twice\n",
        "d/out: a symbolic link to a file outside the folder, left alone\n",
        "d/out2: a symbolic link to a file outside the folder, left alone\n",
        "d/folder: a symbolic link to a folder, not followed\n",
        "d/by link: 84 bytes with --kind positions; 76 bytes",
    ] {
        assert!(notes.contains(told), "{told}\n{}", run.story());
    }
    assert!(summary(&run).starts_with("9 files: 8 changed, 1 left as they were, 0 refused, 0 not"));
    assert_eq!(
        (folder.state("outside"), folder.state("d2/near")),
        (outside, near)
    );
    assert_eq!(folder.read("d/.store/kept"), best());
    assert_eq!(folder.read("d/m1.radar"), best());
    for name in [
        "d/a",
        "d/b",
        "d/by link",
        "d/sub/second way",
        "d/out",
        "d/out2",
    ] {
        assert!(is_link(&folder, name), "{name}");
    }
}

#[test]
fn a_circle_is_told_and_the_others_go_on() {
    let folder = folder();
    link(&folder, "round2", "d/round1");
    link(&folder, "round1", "d/round2");
    link(&folder, "nowhere", "d/broken");
    link(&folder, "..", "d/sub/up");
    for call in ["best d -o out", "best d --force"] {
        let run = folder.run(call);
        run.failed("d/round1: cannot be read: Too many levels");
        run.failed("d/round2: cannot be read: Too many levels");
        run.failed("d/broken: cannot be read: No such file");
        assert!(run
            .notes()
            .contains("d/sub/up: a symbolic link to a folder, not followed\n"));
        assert!(summary(&run)
            .contains("11 files: 7 changed, 1 left as they were, 0 refused, 3 not read"));
    }
    assert_eq!(folder.read("out/sub/deep/x"), best());
    assert_eq!(folder.read("d/sub/deep/x"), best());
}

#[test]
fn into_another_folder_links_are_read_like_files() {
    let folder = folder();
    folder.write("outside", &folder.read("d/m1.radar"));
    link(&folder, "../outside", "d/out");
    link(&folder, "m5.radar", "d/in");
    let (outside, m5) = (folder.state("outside"), folder.state("d/m5.radar"));
    let run = folder.run("best d -o new");
    assert!(summary(run.printed("")).starts_with("10 files: 9 changed"));
    for name in ["new/out", "new/in"] {
        assert!(!is_link(&folder, name), "{name}");
        assert_eq!(folder.read(name), best(), "{name}");
    }
    assert_eq!(
        (folder.state("outside"), folder.state("d/m5.radar")),
        (outside, m5)
    );
}

#[test]
fn below_the_other_folder_no_link_is_followed() {
    let folder = folder();
    folder.folder("new");
    folder.folder("elsewhere/deep");
    folder.write("outside", b"outside");
    link(&folder, "../outside", "new/m1.radar");
    link(&folder, "../d/m3.radar", "new/m2.radar");
    link(&folder, "nowhere", "new/m3.radar");
    link(&folder, "../elsewhere", "new/sub");
    let state = folder.state("d/m3.radar");
    for force in ["", " --force"] {
        let run = folder.run(&format!("best d -o new{force}"));
        for name in [
            "m1.radar",
            "m2.radar",
            "m3.radar",
            "sub/short",
            "sub/deep/x",
        ] {
            run.failed(&format!(
                "radar-archive: new/{name}: is not written: a symbolic link leads there"
            ));
        }
    }
    assert_eq!(folder.read("outside"), b"outside");
    assert_eq!(folder.state("d/m3.radar"), state);
    assert_eq!(folder.read("new/m4.radar"), best());
    let there = fs::read_dir(folder.path("elsewhere/deep")).expect("it");
    assert_eq!(there.count(), 0);
    link(&folder, "new", "to new");
    folder
        .run_all(["best", "d", "-f", "-o", "to new", "--name", "m5*"])
        .printed("");
    assert_eq!(folder.read("new/m5.radar"), best());
}

#[test]
fn a_folder_above_does_not_overwrite_what_is_read() {
    let folder = folder();
    folder.folder("d/d");
    folder.write("d/d/m1.radar", &folder.read("d/m5.radar"));
    let m1 = folder.state("d/m1.radar");
    let run = folder.run("best d --force -o .");
    run.failed("./d/m1.radar: is not written: it lies inside 'd', which is read");
    assert_eq!(folder.state("d/m1.radar"), m1);
    assert_eq!(folder.read("m1.radar"), best());
    assert_eq!(folder.read("sub/deep/x"), best());
}

#[test]
fn hard_links_get_files_of_their_own() {
    let folder = folder();
    fs::hard_link(folder.path("d/m1.radar"), folder.path("d/second")).expect("a link");
    folder.run("best d --force").printed("");
    assert_eq!(folder.read("d/m1.radar"), best());
    assert_eq!(folder.read("d/second"), best());
    let number = |name| fs::metadata(folder.path(name)).expect("a file").ino();
    assert_ne!(number("d/m1.radar"), number("d/second"));
}
