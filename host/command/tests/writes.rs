//! `set --at -`: many cells written at once.

mod support;

use std::io::Write;
use std::process::Stdio;
use std::time::{Duration, Instant};
use support::files::{pictures, Picture, ALL_KINDS, SETTINGS};
use support::{process, Folder};

/// Lines that write no cell of a picture of one dimension, and what is said of them.
const WRONG: [(&[u8], &str); 18] = [
    (b"2", "the word is missing"),
    (b"2 ", "the word is missing"),
    (b"2 1 1", "nothing after them"),
    (b"2 1 #", "nothing after them"),
    (b"2 x", "'x' is not a number"),
    (b"2 Empty", "or the word empty"),
    (b"2 -1", "'-1' is not a number"),
    (b"2 +1", "'+1' is not a number"),
    (b"2 4294967296", "4294967296 is too large"),
    (b"2 0x", "'0x' is not a number"),
    (b"2 \xff", "'\\xff' is not understood"),
    (b"\xff 2", "'\\xff' is not understood"),
    (b"2,1", "the word is missing"),
    (b"2,1 3", "2,1 has 2 coordinates"),
    (b"@ 3", "'@' is no place"),
    (b"@-1 3", "'@-1' is no place"),
    (b"x 3", "'x' is no place"),
    (b"empty 3", "'empty' is no place"),
];

/// Wants that a call on this input writes nothing; gives what is said.
fn nothing_written(folder: &Folder, input: &[u8], status: i32) -> String {
    let (names, old) = (folder.names(), folder.state("old"));
    for output in ["new", "old -f"] {
        let run = folder.run_on(input, &format!("set m3.radar --at - -o {output}"));
        run.printed_nothing(status);
        assert_eq!(folder.names(), names, "{}", run.story());
        assert_eq!(folder.state("old"), old, "{}", run.story());
    }
    let run = folder.run_on(input, "set m3.radar --at - -o -");
    run.printed_nothing(status).notes()
}

fn folder() -> Folder {
    let folder = Folder::with_samples();
    folder.write("old", b"old");
    folder
}

#[test]
fn a_wrong_line_writes_nothing() {
    let folder = folder();
    for (line, said) in WRONG {
        for end in ["\n3 1\n", "\r\n", ""] {
            let input = [b"# cells\n2 1\n", line, end.as_bytes()].concat();
            let notes = nothing_written(&folder, &input, 2);
            assert!(notes.contains("standard input, line 3: "), "{notes}");
            assert!(notes.contains(said), "{said}: {notes}");
        }
    }
    let long = [b"2 1\n", &vec![b'1'; 1 << 20][..]].concat();
    nothing_written(&folder, &long, 2);
}

#[test]
fn a_place_outside_writes_nothing() {
    let folder = folder();
    for place in ["12", "@12", "@4294967295"] {
        let input = format!("2 1\n\n{place} 1\n3 1\n");
        let notes = nothing_written(&folder, input.as_bytes(), 1);
        let mark = "m3.radar: refused, 8 beyond: standard input, line 3: ";
        assert!(notes.contains(mark), "{notes}");
    }
}

#[test]
fn with_a_word_the_lines_are_places_alone() {
    let folder = folder();
    let mut picture = Picture::sample();
    picture.words[1] = 41;
    picture.words[10] = 41;
    let run = folder.run_on(b"@1\n 10\r\n", "set m5.radar --at - --word 41 -o -");
    assert_eq!(run.ended(0).out, picture.file(SETTINGS[4]));
    let run = folder.run_on(b"2\n3 1\n", "set m5.radar --at - --word 41 -o new");
    let notes = run.usage("set");
    assert!(
        notes.contains("line 2: a line is one place alone"),
        "{notes}"
    );
    folder
        .run_on(b"2\n", "set m5.radar --at - --word x -o new")
        .usage("set");
    folder.run("set m5.radar --at 2 -o new").usage("set");
    assert!(!folder.path("new").exists());
}

#[test]
fn without_a_line_the_same_file() {
    let folder = Folder::new();
    for picture in pictures() {
        for setting in ALL_KINDS {
            let file = picture.file(setting);
            folder.write("p", &file);
            for input in ["", "\n", "# nothing"] {
                let run = folder.run_on(input.as_bytes(), "set p --at - -o -");
                assert_eq!(run.ended(0).out, file, "{setting:?}");
            }
        }
    }
}

#[test]
fn the_file_that_one_set_after_the_other_gives() {
    let folder = Folder::new();
    for setting in ALL_KINDS.into_iter().filter(|s| *s != [3, 2, 255]) {
        let mut picture = Picture::scattered(&[6, 7], 3, 3);
        folder.write("p", &picture.file(setting));
        folder.write("one", &picture.file(setting));
        let mut lines = String::new();
        let writes = [
            ("0,0", 0, "9"),
            ("@41", 41, "0xffffffff"),
            ("0,1", 1, "empty"),
            ("5,6", 41, "empty"),
            ("3,3", 24, "3"),
            ("@0", 0, "5"),
            ("2,2", 16, "16"),
        ];
        for (place, position, word) in writes {
            lines += &format!("{place} {word}\n");
            picture.words[position] = match word {
                "empty" => 3,
                "0xffffffff" => u32::MAX,
                word => word.parse().expect("a word"),
            };
            folder
                .run(&format!("set one --at {place} --word {word} -f -o one"))
                .printed("");
            let run = folder.run_on(lines.as_bytes(), "set p --at - -o -");
            assert_eq!(run.ended(0).out, picture.file(setting), "{setting:?}");
            assert_eq!(folder.read("one"), run.out, "{setting:?}");
        }
    }
}

#[test]
fn only_the_result_has_to_fit() {
    let folder = Folder::new();
    let mut picture = Picture::of(&[300], 0, vec![0; 300]);
    (picture.words[2], picture.words[3]) = (7, 8);
    folder.write("p", &picture.file([3, 1, 2]));
    let run = folder.run_on(b"3 empty\n258 9\n", "set p --at - -o new");
    let message = run.refused(9);
    assert!(message.contains("with these cells written"), "{message}");
    let run = folder.run_on(b"3 empty\n258 9\n2 empty\n", "set p --at - -o -");
    let mut picture = Picture::of(&[300], 0, vec![0; 300]);
    picture.words[258] = 9;
    assert_eq!(run.ended(0).out, picture.file([3, 1, 2]));
    let call = "set p --at - --max-length";
    folder
        .run_on(b"2 0\n", &format!("{call} 60 -o new"))
        .refused(10);
    folder
        .run_on(b"2 0\n", &format!("{call} 61 -o new"))
        .printed("");
}

#[test]
fn the_file_is_not_locked_while_lines_are_waited_for() {
    let folder = Folder::new();
    let mut picture = Picture::of(&[60], 0, vec![0; 60]);
    folder.write("p", &picture.file([2, 0, 0]));
    let mut command = folder.command();
    command.args(["set", "p", "--at", "-", "-f", "-o", "p"]);
    let mut waiting = command.stdin(Stdio::piped()).spawn().expect("the program");
    let mut input = waiting.stdin.take().expect("its input");
    input.write_all(b"1 2\n").expect("a line");
    let begin = Instant::now();
    folder.run("set p --at 5 --word 6 -f -o p").printed("");
    assert!(begin.elapsed() < Duration::from_secs(20));
    input.write_all(b"9 10\n").expect("a line");
    drop(input);
    let status = process::end(&mut waiting, Duration::from_secs(60));
    assert!(status.success(), "{status}");
    for at in [1, 5, 9] {
        picture.words[at] = at as u32 + 1;
    }
    assert_eq!(folder.read("p"), picture.file([2, 0, 0]));
}

#[test]
fn no_write_of_many_calls_is_lost() {
    let folder = Folder::new();
    folder.write("p", &Picture::of(&[60], 0, vec![0; 60]).file([2, 0, 0]));
    let start = |at: usize| {
        let mut command = folder.command();
        command.args(["set", "p", "--at", "-", "-f", "-o", "p"]);
        let mut child = command.stdin(Stdio::piped()).spawn().expect("the program");
        let mut input = child.stdin.take().expect("its input");
        let lines = format!("{at} 7\n{} {}\n", at + 30, at + 31);
        input.write_all(lines.as_bytes()).expect("lines");
        child
    };
    let started: Vec<_> = (0..30).map(start).collect();
    for mut child in started {
        let status = process::end(&mut child, Duration::from_secs(60));
        assert!(status.success(), "{status}");
    }
    let words = (0..60).map(|at| if at < 30 { 7 } else { at + 1 });
    let picture = Picture::of(&[60], 0, words.collect());
    assert_eq!(folder.read("p"), picture.file([2, 0, 0]));
    assert_eq!(folder.names(), ["p"]);
}

#[test]
fn a_million_lines_take_seconds() {
    let folder = Folder::new();
    let mut picture = Picture::scattered(&[1000, 1000], 0, 3);
    folder.write("p", &picture.file([5, 0, 16]));
    let mut lines = String::new();
    for turn in 0..1_000_000usize {
        let position = turn * 7919 % 1_000_000;
        let word = (turn % 5) as u32;
        lines += &format!("{},{} {word}\n", position / 1000, position % 1000);
        picture.words[position] = word;
    }
    let begin = Instant::now();
    let run = folder.run_on(lines.as_bytes(), "set p --at - -o -");
    let time = begin.elapsed();
    println!("a million lines written: {time:?}");
    assert!(time < Duration::from_secs(20), "{time:?}");
    assert!(run.ended(0).out == picture.file([5, 0, 16]), "the file");
}

#[test]
fn more_lines_than_a_picture_has_cells() {
    let folder = folder();
    let names = folder.names();
    let run = folder.bash("yes '2 1' | radar-archive set m1.radar --at - -o new");
    let notes = run.usage("set");
    assert!(
        notes.contains("line 16777217: more than 16,777,216 cells"),
        "{notes}"
    );
    assert_eq!(folder.names(), names);
}
