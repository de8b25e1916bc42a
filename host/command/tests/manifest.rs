//! `manifest`: what is written, and what is told of files that changed.

mod support;

use support::files::{damaged, with_field, Picture, SETTINGS};
use support::{Folder, Outcome};

/// The offset of the empty word in a header.
const EMPTY: usize = 20;

/// Pictures of one to four dimensions, one without stored cells and one with nothing else.
fn pictures() -> Vec<Picture> {
    vec![
        Picture::sample(),
        Picture::scattered(&[20, 30], 7, 3),
        Picture::scattered(&[3, 4, 5, 6], 0xffff_ffff, 5),
        Picture::of(&[2, 3, 2], 9, vec![9; 12]),
        Picture::of(&[5], 0, vec![1, 2, 3, 4, 5]),
    ]
}

/// A folder whose folder `d` has the sample picture in each kind, and a manifest.
fn written() -> Folder {
    let folder = Folder::new();
    folder.folder("d");
    for setting in SETTINGS {
        let name = format!("d/{}", setting[0]);
        folder.write(name, &Picture::sample().file(setting));
    }
    folder.run("manifest write d").printed("");
    folder
}

/// The lines of the manifest that begin so, without that.
fn lines(folder: &Folder, begin: &str) -> Vec<String> {
    let text = String::from_utf8(folder.read("d/MANIFEST.sha256")).expect("text");
    let found = text.lines().filter_map(|line| line.strip_prefix(begin));
    found.map(str::to_string).collect()
}

/// Wants this status, this line for the file `name`, and that all others are unchanged.
#[track_caller]
fn told(folder: &Folder, status: i32, name: &str, sentence: &str) -> Outcome {
    let run = folder.run("manifest verify d");
    run.ended(status);
    let line = format!("d/{name}: {sentence}");
    let text = run.text();
    assert!(text.lines().any(|told| told == line), "{}", run.story());
    let others = text.lines().filter(|told| *told != line);
    for other in others {
        assert!(other.ends_with(": unchanged"), "{}", run.story());
    }
    let quiet = folder.run("manifest verify --quiet d");
    assert_eq!(quiet.ended(status).text(), format!("{line}\n"));
    assert_eq!(quiet.notes(), run.notes(), "{}", quiet.story());
    run
}

#[test]
fn round_trip_over_all_kinds() {
    let folder = Folder::new();
    folder.folder("d");
    for (number, picture) in pictures().iter().enumerate() {
        for setting in SETTINGS {
            let name = format!("d/{number}-{}", setting[0]);
            folder.write(name, &picture.file(setting));
        }
    }
    let run = folder.run("manifest write d");
    run.printed("");
    let summary = "d/MANIFEST.sha256: 30 files: 30 with a picture, 0 refused\n";
    assert_eq!(run.notes(), summary);
    let identities = lines(&folder, "# picture ");
    for (number, picture) in pictures().iter().enumerate() {
        folder.write("positions", &picture.file([2, 0, 0]));
        let sum = folder.bash("sha256sum < positions").text();
        for identity in &identities[6 * number..6 * number + 6] {
            assert_eq!(sum, format!("{identity}  -\n"));
        }
        let by_hand = "radar-archive change d/N-5 --kind positions -o - | sha256sum";
        let by_hand = folder.bash(&by_hand.replace('N', &number.to_string()));
        assert_eq!(by_hand.text(), sum);
    }
    let settings = lines(&folder, "# setting ");
    let wanted = ["1 0 0", "2 0 0", "3 1 2", "4 1 0", "5 0 2", "6 1 2"];
    assert_eq!(settings[..6], wanted);
    let run = folder.run("manifest verify d");
    assert_eq!(run.ended(0).text().lines().count(), 30, "{}", run.story());
    assert_eq!(run.text().matches(": unchanged\n").count(), 30);
    let summary = "30 files: 30 unchanged, 0 re-encoded, 0 changed, 0 missing, 0 new, 0 not read\n";
    assert_eq!(run.notes(), summary);
    folder.run("manifest verify -q d").printed("").quiet();
}

#[test]
fn a_changed_word_and_a_changed_empty_word_are_accepted_and_told() {
    for [kind, width, step] in SETTINGS {
        let folder = written();
        let file = Picture::sample().file([kind, width, step]);
        let last = file.len() - 4;
        for changed in [with_field(&file, last, 301), with_field(&file, EMPTY, 1234)] {
            folder.write(format!("d/{kind}"), &changed);
            folder.run(&format!("check d/{kind}")).ended(0);
            told(&folder, 1, &kind.to_string(), "changed, another picture");
        }
        folder.write(format!("d/{kind}"), &file);
        folder.run("manifest verify --quiet d").printed("").quiet();
    }
}

#[test]
fn other_dimensions_of_the_same_words_are_another_picture() {
    let folder = written();
    let square = Picture::of(&[3, 4], 0, Picture::sample().words);
    folder.write("d/1", &square.file([1, 0, 0]));
    told(&folder, 1, "1", "changed, another picture");
}

#[test]
fn another_setting_is_re_encoded() {
    let folder = written();
    let change = "change d/1 --kind 5 --step 7 --force -o d/1";
    folder.run(change).printed("");
    let both = "re-encoded, the same picture: --kind runs before, --kind paged-runs --step 7 now";
    told(&folder, 0, "1", both);
    folder.run("change d/2 --kind runs -f -o d/1").printed("");
    folder.run("manifest verify -q d").printed("").quiet();
    folder.run("best d/5 --force -o d/5").printed("");
    let both = "re-encoded, the same picture: --kind paged-runs --step 2 before, \
                --kind base-offset --width 1 --step 4 now";
    let run = told(&folder, 0, "5", both);
    let summary = "6 files: 5 unchanged, 1 re-encoded, 0 changed, 0 missing, 0 new, 0 not read\n";
    assert_eq!(run.notes(), summary);
}

#[test]
fn missing_and_new() {
    let folder = written();
    let file = folder.read("d/3");
    folder.remove("d/3");
    told(
        &folder,
        1,
        "3",
        "missing, in the manifest, not in the folder",
    );
    folder.write("d/3", &file);
    folder.folder("d/sub");
    folder.write("d/sub/x", &file);
    let new = "new, in the folder, not in the manifest";
    told(&folder, 1, "sub/x", new);
    std::fs::rename(folder.path("d/5"), folder.path("d/7")).expect("another name");
    let run = folder.run("manifest verify -q d");
    assert_eq!(run.ended(1).text().lines().count(), 3, "{}", run.story());
    let summary = "8 files: 5 unchanged, 0 re-encoded, 0 changed, 1 missing, 2 new, 0 not read\n";
    assert_eq!(run.notes(), summary);
}

#[test]
fn refused_files_are_listed_by_their_bytes() {
    let folder = Folder::new();
    folder.folder("d");
    for (at, (_, _, file)) in damaged().iter().enumerate() {
        folder.write(format!("d/{at:02}"), file);
    }
    folder.write("d/good", &Picture::sample().file(SETTINGS[3]));
    let run = folder.run("manifest write d");
    assert_eq!(run.ended(1).text(), "");
    let told = run.notes();
    let refused = lines(&folder, "# refused ");
    assert_eq!(refused.len(), damaged().len());
    for ((number, _, _), listed) in damaged().iter().zip(&refused) {
        assert_eq!(*listed, format!("{number} {}", support::WORDS[*number]));
        let line = format!(": refused, {listed}: ");
        assert!(told.contains(&line), "{line}: {}", run.story());
    }
    let summary = "19 files: 1 with a picture, 18 refused\n";
    assert!(told.ends_with(summary), "{}", run.story());
    folder.run("manifest verify -q d").printed("").quiet();
}

#[test]
fn from_and_to_a_refused_file() {
    let folder = written();
    let good = folder.read("d/2");
    folder.write("d/2", &with_field(&good, 24, 13));
    let counts = "5 counts: the header says 13 stored cells of 12 cells (byte 24)";
    let sentence = format!("changed, a picture before, now refused, {counts}");
    told(&folder, 1, "2", &sentence);
    folder.run("manifest write d --force").refused(5);
    folder.run("manifest verify -q d").printed("").quiet();
    folder.write("d/2", &good);
    told(
        &folder,
        1,
        "2",
        "changed, refused before, 5 counts; now a picture",
    );
    folder.write("d/2", &with_field(&good, 24, 14));
    let run = folder.run("manifest verify -q d");
    let begin = "d/2: changed, refused before, 5 counts; now refused, 5 counts: ";
    assert!(run.ended(1).text().starts_with(begin), "{}", run.story());
}

#[test]
fn a_manifest_is_replaced_with_force_alone() {
    let folder = written();
    let state = folder.state("d/MANIFEST.sha256");
    folder.write("d/7", &folder.read("d/1"));
    let run = folder.run("manifest write d");
    run.failed("d/MANIFEST.sha256: exists; use --force");
    assert_eq!(folder.state("d/MANIFEST.sha256"), state);
    folder.run("manifest write d -o other").printed("");
    folder.run("manifest verify d -q -m other").printed("");
    let run = folder.run("manifest write d --force");
    run.printed("");
    assert_eq!(folder.read("d/MANIFEST.sha256"), folder.read("other"));
    folder
        .run("manifest write d -o -")
        .printed(&String::from_utf8_lossy(&folder.read("other")));
}

#[test]
fn check_says_a_manifest_and_does_not_check_it() {
    let folder = written();
    let run = folder.run("check d");
    assert_eq!(run.ended(0).text().lines().count(), 6, "{}", run.story());
    assert!(run
        .notes()
        .starts_with("d/MANIFEST.sha256: a manifest, left alone; "));
    folder.run("check --quiet d").printed("").quiet();
    folder.run("check d/MANIFEST.sha256").ended(1);
}

#[test]
fn the_manifest_of_a_subfolder_is_listed_and_not_refused() {
    let folder = Folder::new();
    folder.folder("d/sub");
    folder.write("d/sub/x", &Picture::sample().file(SETTINGS[0]));
    folder.run("manifest write d/sub").printed("");
    let run = folder.run("manifest write d");
    run.printed("");
    assert!(run
        .notes()
        .ends_with("2 files: 1 with a picture, 0 refused, 1 of other manifests\n"));
    folder.run("manifest verify -q d").printed("").quiet();
    let text = folder.read("d/sub/MANIFEST.sha256");
    folder.write("d/sub/MANIFEST.sha256", &[&text[..], b"# more\n"].concat());
    told(
        &folder,
        1,
        "sub/MANIFEST.sha256",
        "changed, other bytes, now a manifest",
    );
}

#[test]
fn an_empty_folder() {
    let folder = Folder::new();
    folder.folder("d");
    let run = folder.run("manifest write d");
    run.printed("");
    assert!(run.notes().starts_with("d: no files\n"), "{}", run.story());
    folder.run("manifest verify -q d").printed("").quiet();
    folder.write("d/1", b"");
    told(&folder, 1, "1", "new, in the folder, not in the manifest");
}
