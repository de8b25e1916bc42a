//! The folders that `best` and `change` of a folder may not write to.

mod support;

use std::fs;
use std::os::unix::fs::{symlink, MetadataExt, PermissionsExt};
use support::process;
use support::trees::{best, folder, paths, summary};

#[test]
fn a_run_that_fails_before_the_first_file_leaves_no_folder() {
    let folder = folder();
    folder.folder("empty");
    folder.folder("bad");
    folder.write("bad/x", b"bad");
    folder.write("file", b"file");
    symlink("nowhere", folder.path("link")).expect("a link");
    let names = folder.names();
    let cases = [
        ("change d --kind 9 -o out", 1),
        ("change d --kind 1 --step 1 -o out", 1),
        ("change bad --kind 1 -o out", 1),
        ("best empty -o out", 0),
        ("best d -o nowhere/out", 3),
        ("best d -o file", 3),
        ("best d -o file/out", 3),
        ("best d -o link", 3),
        ("best d -o nowhere/..", 3),
        ("best d -o -", 2),
        ("best d -o -f", 2),
        ("best d", 2),
        ("best missing -o out", 3),
        ("best d -o out --name [z]", 0),
    ];
    for (call, status) in cases {
        let run = folder.run(call);
        run.printed_nothing(status);
        assert_eq!(folder.names(), names, "{}", run.story());
    }
    folder.run_all(["best", "d", "-o", ""]).usage("best");
    let notes = folder.run("best d").usage("best");
    assert!(
        notes.contains("-o DIR") && notes.contains("--force"),
        "{notes}"
    );
    let notes = folder
        .run("change d --kind 3 --width 3 --step 2 -o out")
        .refused(3);
    assert!(notes.contains("--width 1 or 2"), "{notes}");
}

#[test]
fn the_folder_that_is_read_and_what_is_inside_are_refused() {
    let folder = folder();
    symlink("d", folder.path("link")).expect("a link");
    symlink("d/sub", folder.path("to sub")).expect("a link");
    let before = paths(&folder, "d");
    let absolute = folder.path("d/new").to_string_lossy().into_owned();
    let same = [
        "d", "d/", "./d", "d/../d", "link", "link/", "d/sub/..", "d/.",
    ];
    let inside = [
        "d/new",
        "d/sub",
        "d/sub/deep",
        "d/../d/new",
        "link/new",
        "link/sub",
        "to sub",
        "to sub/new",
        &absolute,
    ];
    for (targets, said) in [
        (&same[..], "is 'd' itself"),
        (&inside[..], "lies inside 'd'"),
    ] {
        for target in targets {
            for force in [&[][..], &["--force"]] {
                let words = [&["best", "d", "-o", target], force].concat();
                let run = folder.run_all(words);
                assert!(run.failed(target).contains(said), "{}", run.story());
                assert_eq!(run.notes().lines().count(), 1, "{}", run.story());
            }
        }
    }
    assert_eq!(paths(&folder, "d"), before);
    folder
        .run("best link -o d/new")
        .failed("d/new: lies inside 'link'");
    folder.run("best d/sub -o d/new").printed("");
    assert_eq!(folder.read("d/new/deep/x"), best());
}

#[test]
fn where_no_file_can_be_written_no_folder_stays() {
    let folder = folder();
    let names = folder.names();
    let run = folder.bash("trap '' XFSZ; ulimit -f 0; exec radar-archive best d -o out");
    run.failed("out/sub/deep/x: cannot be written: File too large");
    assert!(summary(&run).contains(" 8 not read or written; 0 bytes before, 0 after"));
    assert_eq!(folder.names(), names, "{}", run.story());
}

#[test]
fn a_folder_that_may_not_be_written() {
    let folder = folder();
    let bits = |name: &str, bits| {
        fs::set_permissions(folder.path(name), PermissionsExt::from_mode(bits)).expect("bits");
    };
    folder.folder("closed");
    folder.folder("open/sub");
    bits("closed", 0o555);
    bits("open", 0o777);
    bits("open/sub", 0o555);
    bits("d/m3.radar", 0o000);
    let run = folder.run_as_nobody("best d -o closed/new");
    let notes = run.failed("closed/new: cannot be made: Permission denied");
    assert_eq!(notes.lines().count(), 1, "said once: {notes}");
    let run = folder.run_as_nobody("best d -o closed");
    assert_eq!(
        run.ended(3)
            .notes()
            .matches("radar-archive: closed/")
            .count(),
        7
    );
    let run = folder.run_as_nobody("best d -o open");
    run.failed("d/m3.radar: cannot be read: Permission denied");
    run.failed("open/sub/short: cannot be written: ");
    run.failed("open/sub/deep/x: cannot be written: its folder 'open/sub/deep' cannot be made: ");
    assert!(summary(&run).starts_with("8 files: 5 changed, 0 left as they were, 0 refused, 3 not"));
    let owner = fs::metadata(folder.path("open/m1.radar"))
        .expect("a file")
        .uid();
    assert_eq!(owner, if process::is_root() { 65534 } else { owner });
    assert_eq!(
        paths(&folder, "open"),
        ".\n./m1.radar\n./m2.radar\n./m4.radar\n./m5.radar\n./m6.radar\n./sub\n"
    );
}

#[test]
fn in_place_a_folder_that_may_not_be_written() {
    let folder = folder();
    let bits = |name: &str, bits| {
        fs::set_permissions(folder.path(name), PermissionsExt::from_mode(bits)).expect("bits");
    };
    bits("d", 0o777);
    bits("d/sub", 0o555);
    bits("d/sub/deep", 0o555);
    let (before, x) = (paths(&folder, "d"), folder.state("d/sub/deep/x"));
    let run = folder.run_as_nobody("best d --force --quiet");
    run.failed("d/sub/deep/x: cannot be written: no file can be made in its folder 'd/sub/deep'");
    let told = "8 files: 6 changed, 1 left as they were, 0 refused, 1 not read or written; ";
    assert!(summary(&run).starts_with(told), "{}", run.story());
    assert_eq!(run.notes().lines().count(), 2, "{}", run.story());
    assert_eq!(folder.state("d/sub/deep/x"), x);
    assert_eq!(folder.read("d/m5.radar"), best());
    assert_eq!(paths(&folder, "d"), before);
}

#[test]
fn runs_on_one_folder_at_the_same_time_take_turns() {
    let folder = folder();
    let before = paths(&folder, "d");
    let script =
        "for kind in 1 2 1 2 1 2; do radar-archive change d --kind $kind -qf & jobs+=($!); done; \
                  for job in ${jobs[@]}; do wait $job; echo $?; done";
    folder.bash(script).printed("0\n0\n0\n0\n0\n0\n");
    folder.run("check --quiet d").quiet();
    assert_eq!(paths(&folder, "d"), before);
    let script = "for i in 1 2 3 4; do radar-archive best d -q -o out & jobs+=($!); done; \
                  for job in ${jobs[@]}; do wait $job; done; radar-archive check -q out; ls -A out/sub/deep";
    folder.bash(script).printed("x\n");
    assert_eq!(paths(&folder, "out"), before);
}
