//! `best` and `change` of a folder into another folder.

mod support;

use support::files::{damaged, with_byte, Picture};
use support::trees::{best, folder, paths, summary};

#[test]
fn the_same_paths_below_another_folder() {
    let folder = folder();
    let before = folder
        .bash("cd d && find . -type f -exec sha256sum {} + -exec stat -c %i-%y {} +")
        .text();
    for output in ["out", "made/", "./third", "d/../fourth"] {
        folder.folder("made");
        let run = folder.run(&format!("best d -o {output}"));
        run.printed("");
        assert_eq!(paths(&folder, output), paths(&folder, "d"));
        for name in ["m1.radar", "m6.radar", "sub/deep/x", "sub/short"] {
            assert_eq!(folder.read(format!("{output}/{name}")), best(), "{name}");
        }
        assert_eq!(run.notes().lines().count(), 9, "{}", run.story());
        let told = "d/m2.radar: 84 bytes with --kind positions; 76 bytes with --kind base-offset --width 1 --step 4, the shortest\n";
        assert!(run.notes().contains(told), "{}", run.story());
        let counted = "8 files: 7 changed, 1 left as they were, 0 refused, 0 not read or written; 704 bytes before, 608 after";
        assert_eq!(summary(&run), counted);
    }
    let after = folder
        .bash("cd d && find . -type f -exec sha256sum {} + -exec stat -c %i-%y {} +")
        .text();
    assert_eq!(before, after, "the folder that is read stays as it is");
}

#[test]
fn change_says_only_the_summary() {
    let folder = folder();
    let run = folder.run("change d --kind runs -o out");
    run.printed("");
    assert_eq!(
        run.notes(),
        "8 files: 7 changed, 1 left as they were, 0 refused, 0 not read or written; 704 bytes before, 736 after\n"
    );
    assert_eq!(
        folder.read("out/sub/deep/x"),
        Picture::sample().file([1, 0, 0])
    );
    assert_eq!(folder.read("out/m1.radar"), folder.read("d/m1.radar"));
    folder.run("change d --kind runs -o quiet --quiet").quiet();
    folder.run("best d/m1.radar --quiet -o single").quiet();
}

#[test]
fn refused_files_are_told_and_the_others_go_on() {
    let folder = folder();
    for (number, (_, _, file)) in damaged().iter().enumerate() {
        folder.write(format!("d/sub/bad{number:02}"), file);
    }
    let bad = damaged().len();
    let run = folder.run("best d --quiet -o out");
    run.printed_nothing(1);
    assert_eq!(run.notes().lines().count(), bad + 1, "{}", run.story());
    let checked = folder.run("check --quiet d").text();
    let told: String = checked
        .lines()
        .map(|line| format!("radar-archive: {line}\n"))
        .collect();
    assert!(run.notes().starts_with(&told), "{}", run.story());
    assert!(summary(&run).starts_with(&format!(
        "{} files: 7 changed, 1 left as they were, {bad} refused, 0 not",
        bad + 8
    )));
    assert_eq!(folder.bash("ls out out/sub | grep bad").text(), "");
    let run = folder.run("best d --name m?.radar --max-length 75 -o small");
    assert_eq!(
        run.ended(1).notes().matches("refused, 10 small: ").count(),
        6
    );
    assert!(!folder.path("small").exists(), "no file, no folder");
    folder.write(
        "d/wide",
        &Picture::of(&[1000], 0, [vec![1], vec![0; 998], vec![1]].concat()).file([2, 0, 0]),
    );
    let run = folder.run("change d --kind 3 --width 1 --step 2 --name [mw]* -o width");
    run.refused(9);
    assert!(
        run.notes().contains("d/wide: refused, 9 unfit: "),
        "{}",
        run.story()
    );
    assert!(summary(&run).starts_with("7 files: 5 changed, 1 left as they were, 1 refused"));
}

#[test]
fn what_exists_there_is_replaced_only_with_force() {
    let folder = folder();
    folder.folder("out/sub");
    folder.folder("out/m4.radar");
    folder.write("out/m2.radar", b"old");
    folder.write("out/other", b"other");
    folder.write("out/sub/deep", b"a file in the way");
    let old = folder.state("out/m2.radar");
    let run = folder.run("best d -o out");
    run.failed("out/m2.radar: exists; use --force to replace it");
    run.failed("out/m4.radar: exists; use --force");
    run.failed("out/sub/deep/x: cannot be written: its folder 'out/sub/deep' cannot be made: ");
    assert_eq!(folder.state("out/m2.radar"), old);
    assert!(summary(&run).starts_with(
        "8 files: 4 changed, 1 left as they were, 0 refused, 3 not read or written; "
    ));
    let run = folder.run("best d --force -o out");
    run.failed("out/m4.radar: is a folder, not a file");
    assert_eq!(folder.read("out/m2.radar"), best());
    assert_eq!(folder.read("out/other"), b"other");
    assert_eq!(folder.read("out/sub/deep"), b"a file in the way");
}

#[test]
fn hidden_names_and_what_else_is_met() {
    let folder = folder();
    folder.write("d/.hidden", &with_byte(&best(), 0, 9));
    folder
        .bash("mkfifo d/pipe && ln -s sub d/link && mkdir d/none")
        .ended(0);
    let run = folder.run("change d --kind 1 --name [!m]* -o out");
    let notes = run.failed("d/pipe: cannot be read: it is a pipe");
    assert!(notes.contains("d/link: a symbolic link to a folder, not followed\n"));
    assert!(notes.ends_with("; 1 hidden name passed over (--all takes it); 6 files passed over whose names do not match --name\n"));
    assert_eq!(
        paths(&folder, "out"),
        ".\n./sub\n./sub/deep\n./sub/deep/x\n./sub/short\n"
    );
    folder
        .run("change d --kind 1 --name .* --all -o all")
        .refused(2);
}
