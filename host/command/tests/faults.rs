//! Calls of the operating system that fail or lie, put between the program and the system's library: nothing false takes the
//! target's place, and nothing is left beside it.

mod support;

use std::path::Path;
use std::process::Command;
use support::files::{raw, Picture, SAMPLE};
use support::{process, Folder, Outcome};

/// The sample files, the raw words, an old target, and the library of faults; nothing where no C compiler is.
fn folder() -> Option<Folder> {
    let folder = Folder::with_samples();
    folder.write("raw", &raw(&SAMPLE));
    folder.write("old", b"old");
    folder.write("faults.c", include_bytes!("support/faults.c"));
    let compiled = folder.bash("cc -Wall -Werror -shared -fPIC -o faults.so faults.c -ldl");
    if compiled.status.code() == Some(127) {
        eprintln!("no C compiler here: not tested");
        return None;
    }
    compiled.quiet();
    Some(folder)
}

/// A call with a fault.
fn with_fault(folder: &Folder, fault: &str, call: &str) -> Outcome {
    with_fault_on(folder, fault, call, None)
}

/// A call with a fault and this standard input.
fn with_fault_on(folder: &Folder, fault: &str, call: &str, input: Option<&[u8]>) -> Outcome {
    let mut command = Command::new(support::PROGRAM);
    command.args(call.split(' ')).current_dir(folder.path(""));
    command
        .env("LD_PRELOAD", Path::new(&folder.path("faults.so")))
        .env("FAULT", fault);
    process::run(&mut command, input)
}

const WRITERS: [&str; 6] = [
    "box m2.radar --low 0 --high 11",
    "expand m2.radar",
    "make --dims 12 --kind 1 raw",
    "set m2.radar --at 6 --word 41",
    "change m2.radar --kind 4 --width 2",
    "best m2.radar",
];

#[test]
fn what_is_written_wrong_does_not_take_the_place() {
    let Some(folder) = folder() else { return };
    let (names, state) = (folder.names(), folder.state("old"));
    for fault in ["flip", "lose", "io", "sync", "rename"] {
        for call in WRITERS {
            for target in ["-o new", "-f -o new", "-f -o old"] {
                let run = with_fault(&folder, fault, &format!("{call} {target}"));
                run.failed(&target[target.len() - 3..]);
                assert_eq!(folder.names(), names, "{fault}: {}", run.story());
                assert_eq!(folder.state("old"), state, "{fault}: {}", run.story());
            }
        }
    }
}

#[test]
fn short_and_interrupted_calls_go_on() {
    let Some(folder) = folder() else { return };
    for fault in ["none", "halves", "interrupted"] {
        for call in WRITERS {
            let plain = folder.run(&format!("{call} -o -")).ended(0).out.clone();
            with_fault(&folder, fault, &format!("{call} -o new")).ended(0);
            assert_eq!(folder.read("new"), plain, "{fault}: {call}");
            let out = with_fault(&folder, fault, &format!("{call} -o -"));
            assert_eq!(out.ended(0).out, plain, "{fault}: {call}");
            folder.remove("new");
        }
        let list = with_fault(&folder, fault, "list m5.radar");
        list.printed("5 12 4\n0 2 7\n1 3 9\n2 5 5\n3 10 300\n");
    }
}

#[test]
fn lines_come_through_short_and_interrupted_calls() {
    let Some(folder) = folder() else { return };
    let comment = [b"#", &vec![b'c'; 1000][..], b"\n"].concat();
    let places = [&comment[..], b"10\n", &comment, b"@2\r\n3"].concat();
    let list = b"2 12 4\n0 2 7\n1 3 9\n2 5 5\n3 10 300\n";
    for fault in ["none", "halves", "interrupted"] {
        let run = with_fault_on(&folder, fault, "cell m5.radar --at -", Some(&places));
        run.printed("300\n7\n9\n");
        let call = "make --list - --dims 12 --kind 2 -o -";
        let run = with_fault_on(&folder, fault, call, Some(list));
        assert_eq!(run.ended(0).out, folder.read("m2.radar"), "{fault}");
    }
}

#[test]
fn without_hard_links_a_new_file_is_renamed_into_place() {
    let Some(folder) = folder() else { return };
    let state = folder.state("old");
    for call in WRITERS {
        with_fault(&folder, "no links", &format!("{call} -o new")).ended(0);
        assert!(!folder.read("new").is_empty());
        folder.remove("new");
        with_fault(&folder, "no links", &format!("{call} -o old")).failed("old");
        assert_eq!(folder.state("old"), state, "{call}");
    }
}

#[test]
fn without_locks_no_file_is_replaced_and_a_new_one_is_written() {
    let Some(folder) = folder() else { return };
    let (names, state) = (folder.names(), folder.state("old"));
    for call in WRITERS {
        let run = with_fault(&folder, "no locks", &format!("{call} -f -o old"));
        run.failed("old: cannot be locked: No locks available; nothing was changed");
        assert_eq!(folder.names(), names, "{}", run.story());
        assert_eq!(folder.state("old"), state, "{}", run.story());
        with_fault(&folder, "no locks", &format!("{call} -f -o new")).ended(0);
        folder.remove("new");
    }
}

#[test]
fn a_lock_is_taken_through_interruptions() {
    let Some(folder) = folder() else { return };
    with_fault(&folder, "interrupted", "best m2.radar -f -o m2.radar").ended(0);
    let best = Picture::sample().file([3, 1, 4]);
    assert_eq!(folder.read("m2.radar"), best);
}

#[test]
fn a_target_that_appears_at_the_last_moment_is_not_replaced() {
    let Some(folder) = folder() else { return };
    for call in WRITERS {
        let run = with_fault(&folder, "late", &format!("{call} -o new"));
        run.failed("new");
        let theirs = std::fs::read_link(folder.path("new")).expect("their link");
        assert_eq!(theirs, Path::new("theirs"), "{}", run.story());
        folder.remove("new");
        assert!(!folder.path("theirs").exists(), "{}", run.story());
    }
    assert_eq!(folder.read("old"), b"old");
    let best = Picture::sample().file([3, 1, 4]);
    with_fault(&folder, "none", "best m2.radar -o new").ended(0);
    assert_eq!(folder.read("new"), best);
}

#[test]
fn the_file_is_synced_before_it_takes_its_place_and_the_folder_after() {
    let Some(folder) = folder() else { return };
    for call in WRITERS {
        for (target, placed) in [("-o new", "link"), ("-f -o old", "rename")] {
            with_fault(&folder, "log", &format!("{call} {target}")).ended(0);
            let log = String::from_utf8(folder.read("log")).expect("text");
            let mut lines: Vec<_> = log.lines().collect();
            lines.dedup();
            let expected = ["write", "sync of the file", placed, "sync of the folder"];
            assert_eq!(lines, expected, "{call} {target}");
            folder.remove("log");
        }
        folder.remove("new");
    }
}
