//! `cell` and `rank` at the places that standard input has, and the lines that are no places.

mod support;

use std::time::{Duration, Instant};
use support::files::{pictures, Picture, ALL_KINDS, SAMPLE};
use support::json::Json;
use support::Folder;

/// Lines that are no place of a picture of one dimension, and what is said of them.
const WRONG: [(&[u8], &str); 21] = [
    (b"x", "'x' is no place"),
    (b"@", "'@' is no place"),
    (b"@-1", "'@-1' is no place"),
    (b"-1", "'-1' is no place"),
    (b"+1", "'+1' is no place"),
    (b"1.5", "'1.5' is no place"),
    (b"2 3", "nothing after it"),
    (b"2\t#", "nothing after it"),
    (b"2,", "'2,' is no place"),
    (b"1,2", "1,2 has 2 coordinates"),
    (b"0,0,0,0,0", "has 5 coordinates"),
    (b"@1,2", "'@1,2' is no place"),
    (b"4294967296", "4294967296 is too large"),
    (b"@99999999999999999999", "is too large"),
    (b"0x100000000", "is too large"),
    (b"\xff\xfe", "'\\xff\\xfe' is not understood"),
    (b"1\xff", "'1\\xff' is not understood"),
    (b"2\0", "'2\\x00' is no place"),
    (b"2\r3", "'2\\r3' is no place"),
    (b"\x0c2", "'\\x0c2' is no place"),
    (b"\xc2\xa02", "is no place"),
];

#[test]
fn a_line_that_is_no_place_is_told_with_its_number() {
    let folder = Folder::with_samples();
    for (line, said) in WRONG {
        for (end, command) in [("\n3\n", "cell"), ("", "cell"), ("\r\n", "rank")] {
            let input = [b"# places\n\n10\n", line, end.as_bytes()].concat();
            let run = folder.run_on(&input, &format!("{command} m2.radar --at -"));
            run.ended(2);
            let notes = run.notes();
            assert!(
                notes.starts_with("radar-archive: standard input, line 4: "),
                "{notes}"
            );
            assert!(notes.contains(said), "{said}: {notes}");
            let hint = format!("\nTry 'radar-archive {command} --help'.\n");
            assert!(notes.ends_with(&hint), "{notes}");
            let found = if command == "cell" { "300\n" } else { "3\n" };
            assert_eq!(run.text(), found, "{}", run.story());
        }
    }
}

#[test]
fn a_place_outside_is_refused_with_8_and_its_line() {
    let folder = Folder::with_samples();
    for place in ["12", "@12", "4294967295", "@0xffffffff"] {
        for command in ["cell", "rank"] {
            let input = format!("2\n\n{place}\n3\n");
            let run = folder.run_on(input.as_bytes(), &format!("{command} m4.radar --at -"));
            let message = run.refused(8);
            assert!(message.starts_with("standard input, line 3: "), "{message}");
            assert_eq!(run.text().lines().count(), 1, "{}", run.story());
        }
    }
    let run = folder.run_on(b"2\n12\n", "cell m4.radar --json --at -");
    let message = run.refused(8);
    let lines = run.json_lines();
    assert_eq!(lines.len(), 2, "{}", run.story());
    assert_eq!(lines[1].at("refused").at("message").text(), message);
}

#[test]
fn lines_as_other_systems_write_them() {
    let folder = Folder::with_samples();
    let texts: [(&[u8], &str); 9] = [
        (b"", ""),
        (b"\n\n", ""),
        (b"# none\n#\n  # neither\n", ""),
        (b"10", "300\n"),
        (b"10\n@2", "300\n7\n"),
        (b"10\r\n\r\n@2\r\n", "300\n7\n"),
        (b"\t 10 \t\n  @0x2\n", "300\n7\n"),
        (b" \t\r\n00010\n", "300\n"),
        (b"2\n2\n2\n", "7\n7\n7\n"),
    ];
    for (text, words) in texts {
        folder
            .run_on(text, "cell m3.radar --at -")
            .printed(words)
            .quiet();
    }
}

#[test]
fn a_line_that_is_far_too_long() {
    let folder = Folder::with_samples();
    let long = vec![b'1'; 1 << 20];
    let run = folder.run_on(&long, "cell m1.radar --at -");
    let notes = run.usage("cell");
    assert!(notes.contains("line 1: the line has more than"), "{notes}");
    assert!(notes.len() < 200, "{notes}");
    for length in 190..210 {
        let comment = vec![b'c'; length];
        let text = [b"#", &comment[..], b"\n10\n#", &long, b"\r\n2\n#", &long].concat();
        folder
            .run_on(&text, "cell m1.radar --at -")
            .printed("300\n7\n");
    }
    let blanks = [&vec![b' '; 1 << 20][..], b"\n10\n"].concat();
    folder.run_on(&blanks, "cell m1.radar --at -").usage("cell");
    let endless = folder.bash("tr '\\0' 1 < /dev/zero | radar-archive cell m1.radar --at -");
    endless.usage("cell");
}

#[test]
fn a_standard_input_that_cannot_be_read() {
    let folder = Folder::with_samples();
    let closed = "standard input: is closed";
    folder
        .bash("radar-archive cell m1.radar --at - <&-")
        .failed(closed);
    folder
        .bash("radar-archive set m1.radar --at - -o new <&-")
        .failed(closed);
    folder
        .bash("radar-archive make --list - --dims 12 --kind 1 -o new <&-")
        .failed(closed);
    folder
        .bash("radar-archive cell m1.radar --at - < .")
        .failed("-: cannot be read: it is a folder");
    folder
        .bash("radar-archive set m1.radar --at - -o new 0> x")
        .failed("-: cannot be read: Bad file descriptor");
    assert!(!folder.path("new").exists());
}

#[test]
fn file_and_places_cannot_both_be_standard_input() {
    let folder = Folder::with_samples();
    for call in ["cell - --at -", "rank - --at=-", "set - --at - -o new"] {
        let run = folder.run_on(b"2 1\n", call);
        let notes = run.usage(call.split(' ').next().expect("a command"));
        assert!(notes.contains("FILE and --at are both '-'"), "{notes}");
    }
    folder.run("box m1.radar --low - --high 2").usage("box");
    let m1 = folder.read("m1.radar");
    folder.run_on(&m1, "cell - --at 10").printed("300\n");
}

#[test]
fn words_and_ranks_in_the_order_of_the_places() {
    let folder = Folder::new();
    for picture in pictures() {
        let extents = &picture.extents;
        let cells = picture.words.len();
        let (mut places, mut words, mut ranks) = (String::new(), String::new(), String::new());
        for turn in 0..cells.min(200) {
            let position = turn * 7919 % cells;
            let mut rest = position;
            let mut at: Vec<String> = Vec::new();
            for extent in extents.iter().rev() {
                at.insert(0, (rest % *extent as usize).to_string());
                rest /= *extent as usize;
            }
            let by_position = turn % 3 == 0;
            places += &match by_position {
                true => format!("@{position}\n"),
                false => format!("{}\n", at.join(",")),
            };
            words += &format!("{}\n", picture.words[position]);
            ranks += &picture.rank_line(position);
        }
        for setting in ALL_KINDS {
            folder.write("p", &picture.file(setting));
            let places = places.as_bytes();
            folder.run_on(places, "cell p --at -").printed(&words);
            folder.run_on(places, "rank p --at -").printed(&ranks);
        }
    }
}

#[test]
fn hexadecimal_words_and_objects() {
    let folder = Folder::new();
    let plane = Picture::of(&[3, 4], 0, SAMPLE.to_vec());
    folder.write("p", &plane.file([4, 1, 0]));
    let places = b"2,2\n@0\n";
    folder
        .run_on(places, "cell p --at - --hex")
        .printed("0x0000012c\n0x00000000\n");
    let cases = [
        (
            "cell",
            "{\"position\":10,\"coordinates\":[2,2],\"word\":300}",
            "{\"position\":0,\"coordinates\":[0,0],\"word\":0}",
        ),
        (
            "rank",
            "{\"position\":10,\"coordinates\":[2,2],\"rank\":3,\"before\":3}",
            "{\"position\":0,\"coordinates\":[0,0],\"rank\":null,\"before\":0}",
        ),
    ];
    for (command, first, second) in cases {
        let run = folder.run_on(places, &format!("{command} --json p --at -"));
        run.quiet();
        let lines = run.json_lines();
        assert_eq!(lines, [Json::of(first), Json::of(second)]);
    }
}

#[test]
fn a_line_is_answered_before_the_next_one_comes() {
    let folder = Folder::with_samples();
    let script = "coproc radar-archive cell m2.radar --at -
        for place in 10 2 @3; do
            echo $place >&${COPROC[1]}
            read -t 20 -u ${COPROC[0]} word || exit 9
            echo $word
        done";
    folder.bash(script).printed("300\n7\n9\n");
}

#[test]
fn a_million_places_take_seconds() {
    let folder = Folder::new();
    let picture = Picture::scattered(&[1000, 1000], 0, 3);
    let places: String = (0..1_000_000usize)
        .map(|turn| format!("@{}\n", turn * 7919 % 1_000_000))
        .collect();
    for setting in [[1, 0, 0], [4, 1, 0]] {
        folder.write("p", &picture.file(setting));
        let begin = Instant::now();
        let run = folder.run_on(places.as_bytes(), "cell p --at -");
        let time = begin.elapsed();
        println!("a million places, kind {}: {time:?}", setting[0]);
        assert!(time < Duration::from_secs(20), "{time:?}");
        let words = run.quiet().text();
        let mut words = words.lines();
        for turn in 0..1_000_000 {
            let word = picture.words[turn * 7919 % 1_000_000].to_string();
            assert_eq!(words.next(), Some(&word[..]), "line {turn}");
        }
    }
}
