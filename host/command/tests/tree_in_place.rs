//! `best` and `change` that replace files in place: one, or all of a folder.

mod support;

use std::fs;
use std::os::unix::fs::{symlink, MetadataExt, PermissionsExt};
use support::files::{one_of_each, Picture, SAMPLE, SETTINGS};
use support::trees::{best, folder, paths, summary};
use support::Folder;

/// What tells whether a file was touched: its number, its times and its bytes.
fn untouched(folder: &Folder, name: &str) -> (u64, i64, i64, Vec<u8>) {
    let found = fs::symlink_metadata(folder.path(name)).expect("a file");
    let bytes = folder.read(name);
    (found.ino(), found.mtime_nsec(), found.ctime_nsec(), bytes)
}

#[test]
fn a_hundred_files_some_refused() {
    let folder = Folder::new();
    let bad = one_of_each();
    let mut expected = Vec::new();
    for number in 0..100usize {
        folder.folder(format!("d/{}", number % 3));
        let name = format!("d/{}/{number:02}", number % 3);
        let file = match number % 15 {
            14 => bad[number / 15].1.clone(),
            _ => Picture::sample().file(SETTINGS[number % 6]),
        };
        folder.write(&name, &file);
        let new = if number % 15 == 14 { file } else { best() };
        expected.push((name, new));
    }
    let before = paths(&folder, "d");
    let first = untouched(&folder, "d/2/14");
    let run = folder.run("best d --force");
    run.printed_nothing(1);
    for (name, file) in &expected {
        assert_eq!(&folder.read(name), file, "{name}");
    }
    assert_eq!(untouched(&folder, "d/2/14"), first);
    assert_eq!(paths(&folder, "d"), before, "no file more");
    assert_eq!(run.notes().matches(", the shortest\n").count(), 94);
    assert_eq!(run.notes().matches("radar-archive: d/").count(), 6);
    assert!(summary(&run).starts_with(
        "100 files: 94 changed, 0 left as they were, 6 refused, 0 not read or written; "
    ));
    let again = folder.run("best d --force --quiet");
    again.printed_nothing(1);
    assert_eq!(again.notes().lines().count(), 7, "{}", again.story());
    assert!(summary(&again).starts_with("100 files: 0 changed, 94 left as they were, 6 refused, "));
}

#[test]
fn a_file_that_does_not_change_is_not_touched() {
    let folder = folder();
    let before = untouched(&folder, "d/sub/short");
    folder.run("best d --force").printed("");
    assert_eq!(untouched(&folder, "d/sub/short"), before);
    let all: Vec<_> = ["d/m1.radar", "d/sub/deep/x"]
        .map(|name| untouched(&folder, name))
        .into();
    let run = folder.run("best d -f");
    assert!(summary(run.printed("")).starts_with("8 files: 0 changed, 8 left as they were"));
    assert_eq!(
        all,
        ["d/m1.radar", "d/sub/deep/x"].map(|name| untouched(&folder, name))
    );
}

#[test]
fn one_file_in_place() {
    let folder = Folder::with_samples();
    fs::set_permissions(folder.path("m2.radar"), PermissionsExt::from_mode(0o640)).expect("bits");
    let names = folder.names();
    let run = folder.run("best m2.radar --force");
    run.printed("");
    let told = "m2.radar: 84 bytes with --kind positions; 76 bytes with --kind base-offset --width 1 --step 4, the shortest\n";
    assert_eq!(run.notes(), told);
    assert_eq!(folder.read("m2.radar"), best());
    let found = fs::metadata(folder.path("m2.radar")).expect("it");
    assert_eq!(found.mode() & 0o777, 0o640);
    let state = untouched(&folder, "m2.radar");
    folder.run("best m2.radar -f").printed("");
    folder.run("best m2.radar -fq").quiet();
    assert_eq!(untouched(&folder, "m2.radar"), state, "it does not change");
    folder.run("change m2.radar --kind 1 --force").quiet();
    assert_eq!(folder.read("m2.radar"), Picture::sample().file([1, 0, 0]));
    let state = untouched(&folder, "m3.radar");
    folder.run("change m3.radar --kind 9 --force").refused(2);
    folder
        .run("best m3.radar --max-length 75 --force")
        .refused(10);
    assert_eq!(untouched(&folder, "m3.radar"), state);
    symlink("m4.radar", folder.path("link")).expect("a link");
    folder.run("best link --force").printed("");
    assert_eq!(folder.read("m4.radar"), best());
    folder.remove("link");
    assert_eq!(folder.names(), names);
}

#[test]
fn without_force_and_output_nothing_is_done() {
    let folder = Folder::with_samples();
    let m1 = folder.state("m1.radar");
    for call in ["best m1.radar", "change m1.radar --kind 2"] {
        let name = call.split(' ').next().expect("a command");
        let notes = folder.run(call).usage(name);
        let said = format!("'{name}' wants -o FILE, or --force to replace the file in place");
        assert!(notes.contains(&said), "{notes}");
        let input = call.replace("m1.radar", "-");
        folder.run_on(&m1.1, &input).usage(name);
        let notes = folder
            .run_on(&m1.1, &format!("{input} --force"))
            .usage(name);
        assert!(notes.contains("standard input"), "{notes}");
    }
    assert_eq!(folder.state("m1.radar"), m1);
    folder
        .run("best missing --force")
        .failed("missing: cannot be read: ");
    assert!(!folder.path("missing").exists());
    folder
        .run("set m1.radar --at 2 --word 1 --force")
        .usage("set");
}

#[test]
fn what_another_call_writes_meanwhile_is_not_lost() {
    let folder = folder();
    let mut written = Picture::sample();
    written.words[6] = 41;
    folder.write("written", &written.file([2, 0, 0]));
    let script =
        "exec 9<d/m1.radar; flock 9; radar-archive best d --force --quiet 9<&- & sleep 0.5; \
                  mv written d/m1.radar; exec 9<&-; wait $!; echo $?";
    let run = folder.bash(script);
    if run.notes().contains("flock") {
        eprintln!("no flock here: not tested");
        return;
    }
    run.printed("0\n");
    folder.run("cell d/m1.radar --at 6").printed("41\n");
    let best = folder.run("best d/m1.radar -o -").ended(0).out.clone();
    assert_eq!(folder.read("d/m1.radar"), best);
}

#[test]
fn words_are_kept() {
    let folder = Folder::new();
    let large = Picture::scattered(&[60, 70, 8], 9, 7);
    folder.folder("d");
    folder.write("d/large", &large.file([2, 0, 0]));
    folder.write("d/small", &Picture::sample().file([5, 0, 2]));
    folder.run("change d --kind 4 --width 2 --force").ended(0);
    assert_eq!(folder.read("d/large"), large.file([4, 2, 0]));
    let words = folder.run("expand d/large -o -").ended(0).out.clone();
    assert_eq!(words, large.raw());
    let words = folder.run("expand d/small -o -").ended(0).out.clone();
    assert_eq!(words, support::files::raw(&SAMPLE));
}

#[test]
fn what_killed_runs_left_over_of_these_files_is_removed() {
    let folder = folder();
    let left = [
        "d/.m1.radar.radar-archive-1.tmp",
        "d/sub/deep/.x.radar-archive-7-2.tmp",
    ];
    let others = [
        "d/.other.radar-archive-1.tmp",
        "d/.m1.radar.radar-archive-x.tmp",
        "d/.short.radar-archive-1.tmp",
    ];
    for name in left.iter().chain(&others) {
        folder.write(name, b"left over");
    }
    folder.run("best d --force").printed("");
    for name in left {
        assert!(!folder.path(name).exists(), "{name}");
    }
    for name in others {
        assert_eq!(folder.read(name), b"left over", "{name}");
    }
}

#[test]
fn a_manifest_is_left_alone() {
    let folder = folder();
    folder.run("manifest write d").printed("");
    let manifest = folder.read("d/MANIFEST.sha256");
    let note = "d/MANIFEST.sha256: a manifest, left alone; 'manifest verify' compares it\n";
    for call in ["change d --kind 1 -o out", "change d --kind 1 --force"] {
        let run = folder.run(call);
        run.printed("");
        assert!(run.notes().starts_with(note), "{}", run.story());
        assert!(summary(&run).starts_with("8 files: "), "{}", run.story());
    }
    assert!(!folder.path("out/MANIFEST.sha256").exists());
    assert_eq!(folder.read("d/MANIFEST.sha256"), manifest);
    folder.run("manifest verify d").ended(0);
    folder.run("best d --force --quiet").quiet();
}
