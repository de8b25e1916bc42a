//! What differs at a terminal: the progress bar of `check`, and bytes that are not put on the screen.

mod support;

use support::files::{Picture, SETTINGS};
use support::{Folder, Outcome};

/// Runs a call at a terminal of its own; standard output and standard error of the call come back as one text. Nothing where
/// there is no terminal to be had.
fn at_a_terminal(folder: &Folder, call: &str) -> Option<Outcome> {
    if !folder
        .bash("script -qec true /dev/null </dev/null")
        .status
        .success()
    {
        eprintln!("no terminal can be made here: not tested");
        return None;
    }
    Some(folder.bash(&format!(
        "TERM=xterm script -qec '{call}' /dev/null </dev/null"
    )))
}

#[test]
fn bytes_are_not_put_on_the_screen() {
    let folder = Folder::new();
    let file = Picture::of(&[2, 3], 0, vec![0x4142_4344; 6]).file(SETTINGS[1]);
    folder.write("p", &file);
    folder.write("raw", b"ABCDABCDABCDABCDABCDABCD");
    let calls = [
        "expand p -o -",
        "box p --low 0,0 --high 1,2 -o -",
        "make --dims 2x3 --kind 2 raw -o -",
        "set p --at 0,0 --word 0x41414141 -o -",
        "change p --kind 1 -o -",
        "best p -o -",
    ];
    for call in calls {
        let Some(run) = at_a_terminal(&folder, &format!("radar-archive {call}")) else {
            return;
        };
        assert!(matches!(run.status.code(), Some(2 | 3)), "{}", run.story());
        assert!(run.text().contains("--force"), "{}", run.story());
        assert!(
            !run.text().contains("DCBA") && !run.text().contains("ABCD"),
            "{}",
            run.story()
        );
        let forced =
            at_a_terminal(&folder, &format!("radar-archive {call} --force")).expect("a terminal");
        forced.ended(0);
        assert!(
            forced.text().contains("DCBA") || forced.text().contains("ABCD"),
            "{}",
            forced.story()
        );
    }
    let text =
        at_a_terminal(&folder, "radar-archive box p --low 0,0 --high 0,1").expect("a terminal");
    text.printed("1094861636 1094861636\r\n");
}

/// What stands on the screen after these bytes, line by line.
fn screen(text: &str) -> Vec<String> {
    let mut lines = vec![String::new()];
    let mut column = 0;
    let mut rest = text;
    while let Some(character) = rest.chars().next() {
        let line = lines.last_mut().expect("a line");
        rest = &rest[character.len_utf8()..];
        match character {
            '\r' => column = 0,
            '\n' => lines.push(String::new()),
            '\u{1b}' => {
                rest = rest.strip_prefix("[K").expect("no other code");
                line.truncate(column);
            }
            character => {
                line.truncate(column);
                line.push(character);
                column += character.len_utf8();
            }
        }
    }
    lines
}

/// A check of four files of which the second and the third come after 0.3 seconds each.
const SLOW: &str = "radar-archive check OPTIONS a <(sleep 0.3; cat a) <(sleep 0.3; cat a) bad";

/// The folder of the slow check.
fn slow(options: &str) -> Folder {
    let folder = Folder::new();
    folder.write("a", &Picture::sample().file(SETTINGS[0]));
    folder.write("bad", b"");
    folder.write("slow", SLOW.replace("OPTIONS", options).as_bytes());
    folder
}

const SUMMARY: &str = "4 files: 3 accepted, 1 refused, 0 not read";

#[test]
fn the_progress_bar_is_drawn_and_gone_at_the_end() {
    for options in ["", "--quiet"] {
        let Some(run) = at_a_terminal(&slow(options), "bash slow >lines") else {
            return;
        };
        let text = run.ended(1).text();
        assert_eq!(screen(&text), [SUMMARY, ""], "{}", run.story());
        let drawn = text.matches("\u{1b}[K").count();
        assert!((2..=12).contains(&drawn), "{drawn} times: {}", run.story());
    }
}

#[test]
fn the_progress_bar_gives_way_to_the_lines() {
    let Some(run) = at_a_terminal(&slow(""), "bash slow") else {
        return;
    };
    let lines = screen(run.ended(1).text().as_str());
    let expected = [
        ("a", ": accepted"),
        ("/dev/fd/", ": accepted"),
        ("/dev/fd/", ": accepted"),
        ("bad: refused, 1 short: ", ""),
        (SUMMARY, ""),
        ("", ""),
    ];
    assert_eq!(lines.len(), expected.len(), "{}", run.story());
    for (line, (start, end)) in lines.iter().zip(expected) {
        let same = line.starts_with(start) && line.ends_with(end);
        assert!(same, "{line}\n{}", run.story());
    }
}

#[test]
fn no_progress_is_the_summary_alone() {
    let Some(run) = at_a_terminal(&slow("--no-progress"), "bash slow >lines") else {
        return;
    };
    assert_eq!(run.text(), format!("{SUMMARY}\r\n"), "{}", run.story());
}

#[test]
fn without_a_terminal_there_is_no_bar() {
    let folder = slow("");
    let run = folder.bash(". ./slow");
    assert_eq!(run.notes(), format!("{SUMMARY}\n"), "{}", run.story());
    let lines = run.text();
    assert_eq!(lines.lines().count(), 4, "{}", run.story());
    assert!(!lines.contains(['\r', '\u{1b}']), "{}", run.story());
}
