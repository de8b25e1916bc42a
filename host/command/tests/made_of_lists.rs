//! `make --list`: the file of what `list` prints, and the texts that it does not print.

mod support;

use std::fs::File;
use std::time::{Duration, Instant};
use support::files::{options, pictures, ALL_KINDS};
use support::Folder;

/// The list of the sample picture, without its last newline.
const LIST: &str = "2 12 4\n0 2 7\n1 3 9\n2 5 5\n3 10 300";

/// A call that makes a file of standard input.
const MAKE: &str = "make --list - --dims 12 --kind 2 -o new";

/// Texts that are no list of the sample picture: the line that is told, and what is said of it.
const WRONG: [(&str, u32, &str); 34] = [
    ("", 1, "the text is empty"),
    ("\n", 1, "'' is no first line"),
    ("refused 5\n", 1, "the list of a file that was refused"),
    ("refused \n", 1, "the list of a file that was refused"),
    ("refused5\n", 1, "is no first line"),
    ("2 12\n", 1, "is no first line"),
    ("2 12 4 1\n", 1, "is no first line"),
    ("2 12 4 \n", 1, "is no first line"),
    (" 2 12 4\n", 1, "is no first line"),
    ("2\t12\t4\n", 1, "is no first line"),
    ("2  12 4\n", 1, "is no first line"),
    ("# list\n2 12 4\n", 1, "is no first line"),
    ("0x2 12 4\n", 1, "is no first line"),
    ("2 4294967308 4\n", 1, "is no first line"),
    ("-2 12 4\n", 1, "is no first line"),
    ("0 12 4\n", 1, "is the first line of no list"),
    ("7 12 4\n", 1, "is the first line of no list"),
    ("2 12 13\n", 1, "is the first line of no list"),
    ("2 12 4\n", 1, "ends here, after 0 of 4 stored"),
    ("2 12 4\n0 2 7\n1 3 9\n", 3, "ends here, after 2 of 4"),
    ("2 12 1\n0 2 7\n\n", 3, "a line too many"),
    ("2 12 1\n0 2 7\n1 3 9\n", 3, "a line too many"),
    ("2 12 0\n0 2 7\n", 2, "a line too many"),
    (
        "2 12 2\n0 2 7\n2 3 9\n",
        3,
        "the rank is 2, but rank 1 is next",
    ),
    (
        "2 12 2\n1 2 7\n2 3 9\n",
        2,
        "the rank is 1, but rank 0 is next",
    ),
    (
        "2 12 2\n0 2 7\n0 3 9\n",
        3,
        "the rank is 0, but rank 1 is next",
    ),
    (
        "2 12 2\n0 3 7\n1 2 9\n",
        3,
        "position 2 does not rise above 3",
    ),
    (
        "2 12 2\n0 3 7\n1 3 9\n",
        3,
        "position 3 does not rise above 3",
    ),
    ("2 12 1\n0 12 7\n", 2, "position 12 is none of the 12 cells"),
    ("2 12 1\n0 4294967295 7\n", 2, "is none of the 12 cells"),
    ("2 12 1\n0 2 0\n", 2, "the word 0 is the empty word"),
    ("2 12 1\n0 2 4294967296\n", 2, "is not RANK POSITION WORD"),
    ("2 12 1\n0 02 7\n", 2, "is not RANK POSITION WORD"),
    ("2 12 1\n0 2 7 # one\n", 2, "is not RANK POSITION WORD"),
];

#[test]
fn a_text_that_list_does_not_print() {
    let folder = Folder::new();
    for (text, line, said) in WRONG {
        for (call, name) in [
            (MAKE, "standard input"),
            (
                "make --list 'l --dims 12 --kind 3 --width 1 --step 1 -o new",
                "''l'",
            ),
        ] {
            folder.write("'l", text.as_bytes());
            let run = folder.run_on(text.as_bytes(), call);
            let notes = run.usage("make");
            let mark = format!("radar-archive: {name}, line {line}: ");
            assert!(notes.starts_with(&mark), "{text:?}: {notes}");
            assert!(notes.contains(said), "{text:?}: {said}: {notes}");
            assert_eq!(folder.names(), ["'l"]);
        }
    }
    let run = folder.run_on(b"2 12 1\n0 2 \xff\n", MAKE);
    assert!(run.usage("make").contains("line 2: '0 2 \\xff'"));
    let run = folder.run_on(b"\x7fELF\0", MAKE);
    assert!(run.usage("make").contains("'\\x7fELF\\x00' is no first"));
}

#[test]
fn the_words_of_the_list_and_the_empty_word() {
    let folder = Folder::with_samples();
    let run = folder.run_on(LIST.as_bytes(), &format!("{MAKE} --empty 5"));
    let notes = run.usage("make");
    assert!(notes.contains("line 4: the word 5 is the empty"), "{notes}");
    folder
        .run_on(LIST.as_bytes(), &format!("{MAKE} --empty 8"))
        .printed("");
    let words = "8 8 7 9 8 5 8 8 8 8 300 8\n";
    folder.run("box new --low 0 --high 11").printed(words);
}

#[test]
fn ends_of_lines() {
    let folder = Folder::with_samples();
    let plain = format!("{LIST}\n");
    for text in [LIST, &plain, &plain.replace('\n', "\r\n")] {
        folder.run_on(text.as_bytes(), MAKE).printed("").quiet();
        assert_eq!(folder.read("new"), folder.read("m2.radar"));
        folder.remove("new");
    }
}

#[test]
fn refusals_come_with_their_numbers() {
    let folder = Folder::with_samples();
    let cases = [
        (2, "--dims 12 --kind 7"),
        (3, "--dims 12 --kind 1 --step 1"),
        (4, "--dims 3x2x2x1x1 --kind 1"),
        (4, "--dims 0 --kind 1"),
        (4, "--dims 16777217 --kind 1"),
        (7, "--dims 11 --kind 1"),
        (7, "--dims 3x5 --kind 1"),
        (10, "--dims 12 --kind 2 --max-length 83"),
    ];
    for (number, options) in cases {
        let call = format!("make --list - {options} -o new");
        folder.run_on(LIST.as_bytes(), &call).refused(number);
    }
    let text = b"2 300 2\n0 2 7\n1 258 8\n";
    folder
        .run_on(
            text,
            "make --list - --dims 300 --kind 3 --width 1 --step 2 -o new",
        )
        .refused(9);
    let run = folder.run_on(LIST.as_bytes(), "make --list - --dims 3x5 --kind 1 -o new");
    let message = run.refused(7);
    assert_eq!(
        message,
        "the list is of a picture of 12 cells; --dims 3x5 has 15"
    );
    let huge = "2 16777216 16777216\n0 0 1\n";
    folder
        .run_on(
            huge.as_bytes(),
            "make --list - --dims 16777217 --kind 1 -o new",
        )
        .refused(4);
    assert!(!folder.path("new").exists());
}

#[test]
fn raw_words_or_a_list() {
    let folder = Folder::with_samples();
    folder.write("l", LIST.as_bytes());
    let both = folder.run("make --list l raw --dims 12 --kind 1 -o new");
    assert!(both.usage("make").contains("leave out RAW, 'raw'"));
    let none = folder.run("make --dims 12 --kind 1 -o new");
    assert!(none.usage("make").contains("wants RAW, or --list LIST"));
    folder
        .run_all(["make", "--list=", "--dims=12", "--kind=1", "-onew"])
        .usage("make");
    folder.run("make --list l --kind 1 -o new").usage("make");
    folder.run("make --list l --dims 12 -o new").usage("make");
    folder.run("make --list l --dims 12 --kind 1").usage("make");
    folder
        .run("make --list missing --dims 12 --kind 1 -o new")
        .failed("missing: cannot be read");
    folder
        .run("make --list . --dims 12 --kind 1 -o new")
        .failed(".: cannot be read: it is a folder");
    assert!(!folder.path("new").exists());
    folder
        .run("make --list l --dims 12 --kind 2 -f -o l")
        .printed("");
    assert_eq!(folder.read("l"), folder.read("m2.radar"));
}

#[test]
fn the_list_of_a_file_makes_the_file() {
    let folder = Folder::new();
    for picture in pictures() {
        let (dims, empty) = (picture.dims(), picture.empty);
        for setting in ALL_KINDS {
            let file = picture.file(setting);
            folder.write("p", &file);
            let list = folder.run("list p").quiet().out.clone();
            let call = format!(
                "make --list - --dims {dims} --empty {empty} {} -o -",
                options(setting)
            );
            let made = folder.run_on(&list, &call);
            assert_eq!(made.quiet().out, file, "{dims} {setting:?}");
        }
    }
}

#[test]
fn a_text_far_too_long_is_not_read_to_its_end() {
    let folder = Folder::with_samples();
    let sparse = File::create(folder.path("sparse")).expect("a file");
    sparse.set_len(1 << 40).expect("its length");
    let names = folder.names();
    let begin = Instant::now();
    let make = "radar-archive make --dims 12 --kind 2 -o new --list";
    let lines = format!("(radar-archive list m2.radar; yes '4 11 1') | {make} -");
    let notes = folder.bash(&lines).usage("make");
    assert!(notes.contains("line 6: a line too many"), "{notes}");
    let notes = folder.bash(&format!("{make} /dev/zero")).usage("make");
    assert!(notes.contains("line 1: the line has more"), "{notes}");
    folder.bash(&format!("{make} sparse")).usage("make");
    let many = "(echo 2 16777216 16777216; yes '0 0 1')";
    folder.bash(&format!("{many} | {make} -")).refused(7);
    assert_eq!(folder.names(), names);
    let time = begin.elapsed();
    assert!(time < Duration::from_secs(20), "{time:?}");
}

#[test]
fn the_longest_list() {
    let folder = Folder::new();
    let raw: Vec<u8> = (1..=1u32 << 24).flat_map(u32::to_le_bytes).collect();
    folder.write("raw", &raw);
    let dims = "--dims 16x1024x1024 --kind 1";
    folder.run(&format!("make {dims} raw -o p")).printed("");
    let begin = Instant::now();
    let script = format!(
        "set -o pipefail; radar-archive list p | (ulimit -v 400000; radar-archive make --list - {dims} -o made) && cmp p made"
    );
    folder.bash(&script).printed("");
    let time = begin.elapsed();
    println!("list and make of 16,777,216 lines: {time:?}");
    assert!(time < Duration::from_secs(60), "{time:?}");
}
