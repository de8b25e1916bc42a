//! Each number of the signal list from each command that can give it.

mod support;

use support::files::{damaged, one_of_each, raw, with_byte, Picture, SAMPLE};
use support::{Folder, WORDS};

/// The commands that read one picture file; `F` stands for it.
const READERS: [&str; 12] = [
    "info F",
    "list F",
    "cell F --at @0",
    "rank F --at 0",
    "position F --rank 0",
    "count F --from 0 --to 1",
    "box F --low 0 --high 1",
    "box F --low 0 --high 1 -o new",
    "expand F -o new",
    "set F --at 0 --word 1 -o new",
    "change F --kind 1 -o new",
    "best F -o new",
];

#[test]
fn each_reader_gives_1_to_6() {
    let folder = Folder::with_samples();
    for (number, file) in one_of_each() {
        folder.write("bad file", &file);
        let names = folder.names();
        for reader in READERS {
            let words = reader
                .split(' ')
                .map(|word| if word == "F" { "bad file" } else { word });
            let run = folder.run_all(words);
            let sentence = run.refused(number);
            let mark = format!("radar-archive: bad file: refused, {number} ");
            assert!(run.notes().contains(&mark), "{}", run.story());
            assert!(
                !sentence.contains('\n') && run.notes().ends_with('\n'),
                "{}",
                run.story()
            );
            let out = match reader {
                "list F" => format!("refused {number}\n"),
                _ => String::new(),
            };
            assert_eq!(run.text(), out, "{}", run.story());
            assert_eq!(folder.names(), names, "{}", run.story());
        }
    }
}

#[test]
fn check_says_number_word_and_byte() {
    let folder = Folder::new();
    for (number, byte, file) in damaged() {
        folder.write("bad", &file);
        let run = folder.run("check bad");
        run.ended(1);
        let text = run.text();
        let start = format!("bad: refused, {number} {}: ", WORDS[number]);
        assert!(
            text.starts_with(&start) && text.lines().count() == 1,
            "{}",
            run.story()
        );
        match byte {
            Some(byte) => assert!(
                text.ends_with(&format!(" (byte {byte})\n")),
                "{}",
                run.story()
            ),
            None => assert!(!text.contains("(byte"), "{}", run.story()),
        }
        let sentence = &text[start.len()..];
        assert!(sentence.split(' ').count() >= 4, "{}", run.story());
    }
}

#[test]
fn check_says_the_values_concerned() {
    let folder = Folder::with_samples();
    let m2 = folder.read("m2.radar");
    let cases = [
        (m2[..13].to_vec(), &["13", "52"][..]),
        (with_byte(&m2, 0, 7), &["7", "1 to 6"]),
        (
            with_byte(&folder.read("m5.radar"), 3, 65),
            &["65", "2 to 64"],
        ),
        (with_byte(&m2, 24, 13), &["13", "12"]),
        ([&m2[..], &[0]].concat(), &["84", "85"]),
    ];
    for (file, values) in cases {
        folder.write("bad", &file);
        let run = folder.run("check bad");
        run.ended(1);
        for value in values {
            assert!(run.text().contains(value), "{value}: {}", run.story());
        }
    }
}

#[test]
fn make_gives_its_numbers_in_order() {
    let folder = Folder::new();
    folder.write("raw", &raw(&SAMPLE));
    folder.write("short", &raw(&SAMPLE[..11]));
    folder.write("long", &raw(&[&SAMPLE[..], &[0]].concat()));
    folder.write("odd", &raw(&SAMPLE)[..47]);
    let mut far = vec![0; 300];
    far[2] = 1;
    far[258] = 1;
    folder.write("far", &raw(&far));
    let cases = [
        (2, "--kind 7 --width 9 --dims 0 --max-length 0 short"),
        (3, "--kind 5 --step 65 --dims 0 --max-length 0 short"),
        (3, "--kind 3 --dims 12 raw"),
        (3, "--kind 1 --width 1 --dims 12 raw"),
        (4, "--kind 1 --dims 0 --max-length 0 short"),
        (4, "--kind 1 --dims 12x0 raw"),
        (4, "--kind 1 --dims 16777217 raw"),
        (4, "--kind 1 --dims 65536x65536x65536x65536 raw"),
        (4, "--kind 1 --dims 12x1x1x1x1 raw"),
        (7, "--kind 1 --dims 12 --max-length 0 short"),
        (7, "--kind 1 --dims 12 long"),
        (7, "--kind 1 --dims 12 odd"),
        (
            9,
            "--kind 3 --width 1 --step 2 --dims 300 --max-length 0 far",
        ),
        (10, "--kind 2 --dims 12 --max-length 83 raw"),
        (10, "--kind 2 --dims 12 --max-length 0 raw"),
    ];
    let names = folder.names();
    for (number, arguments) in cases {
        folder
            .run(&format!("make {arguments} -o new"))
            .refused(number);
        assert_eq!(folder.names(), names, "{arguments}");
    }
    folder
        .run("make --kind 2 --dims 12 --max-length 84 raw -o new")
        .printed("");
    folder
        .run("make --kind 3 --width 1 --step 1 --dims 300 far -o far.radar")
        .printed("");
}

#[test]
fn beyond_from_each_command_with_a_place() {
    let folder = Folder::with_samples();
    folder.write(
        "plane",
        &Picture::of(&[3, 4], 0, SAMPLE.to_vec()).file([1, 0, 0]),
    );
    let calls = [
        "cell m2.radar --at 12",
        "cell m2.radar --at @12",
        "cell plane --at 0,4",
        "cell plane --at 3,0",
        "cell plane --at @12",
        "rank m2.radar --at 12",
        "rank plane --at 0,4",
        "position m2.radar --rank 4",
        "box m2.radar --low 5 --high 4",
        "box plane --low 0,2 --high 2,1",
        "box plane --low 0,0 --high 2,4",
        "box plane --low @0 --high @12",
        "box plane --low 3,0 --high 3,0 -o new",
        "set m2.radar --at 12 --word 1 -o new",
        "set plane --at 2,4 --word 1 -o new",
        "set plane --at @4294967295 --word 1 -o new",
    ];
    let names = folder.names();
    for call in calls {
        let run = folder.run(call);
        run.refused(8);
        assert_eq!(run.text(), "", "{}", run.story());
        assert_eq!(folder.names(), names, "{call}");
    }
}

#[test]
fn change_tests_the_file_then_the_setting_then_fit_then_room() {
    let folder = Folder::with_samples();
    folder.write("bad", b"bad");
    let mut far = vec![0; 300];
    far[2] = 1;
    far[258] = 1;
    folder.write("far", &Picture::of(&[300], 0, far).file([1, 0, 0]));
    let cases = [
        (1, "bad --kind 7 --max-length 0"),
        (2, "far --kind 7 --width 9 --max-length 0"),
        (3, "far --kind 3 --width 3 --step 2 --max-length 0"),
        (9, "far --kind 3 --width 1 --step 2 --max-length 0"),
        (10, "far --kind 3 --width 2 --step 2 --max-length 67"),
        (10, "m1.radar --kind 4 --width 1 --max-length 75"),
    ];
    let names = folder.names();
    for (number, arguments) in cases {
        folder
            .run(&format!("change {arguments} -o new"))
            .refused(number);
        assert_eq!(folder.names(), names, "{arguments}");
    }
    folder
        .run("change m1.radar --kind 4 --width 1 --max-length 76 -o new")
        .printed("");
}

#[test]
fn unfit_says_what_to_do() {
    let folder = Folder::new();
    let mut far = vec![0; 300];
    far[2] = 1;
    far[258] = 1;
    folder.write("far", &Picture::of(&[300], 0, far).file([1, 0, 0]));
    let sentence = folder
        .run("change far --kind 3 --width 1 --step 255 -o new")
        .refused(9);
    for words in ["width 1", "step 255", "--width 2", "--step"] {
        assert!(sentence.contains(words), "{sentence}");
    }
}

#[test]
fn set_gives_9_and_10() {
    let folder = Folder::with_samples();
    let mut words = vec![0; 300];
    words[2] = 1;
    folder.write("one", &Picture::of(&[300], 0, words).file([3, 1, 2]));
    let names = folder.names();
    folder.run("set one --at 258 --word 1 -o new").refused(9);
    folder
        .run("set one --at 258 --word 1 --max-length 0 -o new")
        .refused(9);
    folder
        .run("set m2.radar --at 0 --word 1 --max-length 91 -o new")
        .refused(10);
    folder
        .run("set m2.radar --at 2 --word 7 --max-length 83 -o new")
        .refused(10);
    assert_eq!(folder.names(), names);
    folder
        .run("set m2.radar --at 0 --word 1 --max-length 92 -o new")
        .printed("");
    folder.run("set one --at 257 --word 1 -o fit").printed("");
}

#[test]
fn best_gives_10_when_the_shortest_is_longer() {
    let folder = Folder::with_samples();
    let names = folder.names();
    folder
        .run("best m1.radar --max-length 75 -o new")
        .refused(10);
    assert_eq!(folder.names(), names);
    folder
        .run("best m1.radar --max-length 76 -o new")
        .printed("");
    assert_eq!(folder.read("new").len(), 76);
}

#[test]
fn shorter_gives_the_first_files_number_then_the_seconds_then_11() {
    let folder = Folder::with_samples();
    let files = one_of_each();
    for (number, file) in &files {
        folder.write("bad", file);
        let run = folder.run("shorter bad m1.radar");
        run.refused(*number);
        assert!(run.notes().contains("bad: refused"), "{}", run.story());
        folder.run("shorter m1.radar bad").refused(*number);
        for (other, file) in &files {
            folder.write("worse", file);
            folder.run("shorter bad worse").refused(*number);
            folder.run("shorter worse bad").refused(*other);
        }
    }
    let mut other = Picture::sample();
    other.words[2] = 8;
    folder.write("word", &other.file([2, 0, 0]));
    folder.write(
        "moved",
        &Picture::of(&[12], 0, vec![0, 7, 0, 9, 0, 5, 0, 0, 0, 0, 300, 0]).file([2, 0, 0]),
    );
    folder.write(
        "shape",
        &Picture::of(&[3, 4], 0, SAMPLE.to_vec()).file([2, 0, 0]),
    );
    for other in ["word", "moved", "shape"] {
        folder.run(&format!("shorter m2.radar {other}")).refused(11);
        folder.run(&format!("shorter {other} m2.radar")).refused(11);
    }
}
