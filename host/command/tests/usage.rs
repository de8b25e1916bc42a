//! Usage errors: status 2, what is wrong, and the hint at the end.

mod support;

use std::ffi::OsStr;
use std::os::unix::ffi::OsStrExt;
use support::options::{COMMANDS, OTHERS};
use support::Folder;

/// A complete call of each command on files that `folder` has; `new` stands for nothing yet.
const CALLS: [&str; 15] = [
    "check m1.radar",
    "info m1.radar",
    "list m1.radar",
    "cell m1.radar --at 2",
    "rank m1.radar --at 2",
    "position m1.radar --rank 0",
    "count m1.radar --from 2 --to 5",
    "box m1.radar --low 0 --high 1 -o new",
    "expand m1.radar -o new",
    "make --dims 12 --kind 1 raw -o new",
    "set m1.radar --at 2 --word 1 -o new",
    "change m1.radar --kind 1 -o new",
    "shorter m1.radar m2.radar",
    "diff m1.radar m2.radar",
    "best m1.radar -o new",
];

fn folder() -> Folder {
    let folder = Folder::with_samples();
    folder.write("raw", &support::files::raw(&support::files::SAMPLE));
    folder
}

/// The command of a call.
fn command(call: &str) -> &str {
    call.split(' ').next().expect("a command")
}

#[test]
fn the_complete_calls_are_accepted() {
    let folder = folder();
    for call in CALLS {
        folder.run(call).ended(0);
        let _ = std::fs::remove_file(folder.path("new"));
    }
}

#[test]
fn an_unknown_command() {
    let folder = folder();
    let cases = [
        ("chekc", Some("check")),
        ("chang", Some("change")),
        ("chnage", Some("change")),
        ("inf", Some("info")),
        ("conut", Some("count")),
        ("lst", Some("list")),
        ("Check", Some("check")),
        ("shortr", Some("shorter")),
        ("frobnicate", None),
        ("--", None),
        ("", None),
    ];
    for (word, near) in cases {
        let notes = folder.run_all([word, "m1.radar"]).usage("");
        match near {
            Some(near) => {
                let hint = format!("did you mean {near}?");
                assert!(notes.contains(&hint), "{word}: {notes}");
                assert!(notes.contains(word), "{word}: {notes}");
            }
            None => assert!(!notes.contains("did you mean"), "{word}: {notes}"),
        }
    }
    folder.run("").usage("");
    folder.run("--frobnicate").usage("");
}

#[test]
fn an_unknown_option() {
    let folder = folder();
    let cases = [
        ("change m1.radar --kidn 1 -o new", Some("--kind")),
        ("change m1.radar --kidn=1 -o new", Some("--kind")),
        ("change m1.radar --knd 1 -o new", Some("--kind")),
        ("make --dim 12 --kind 1 raw -o new", Some("--dims")),
        ("set m1.radar --at 2 --wrod 1 -o new", Some("--word")),
        ("check --jsno m1.radar", Some("--json")),
        ("check --quite m1.radar", Some("--quiet")),
        ("cell m1.radar --hx --at 2", Some("--hex")),
        ("best m1.radar --focre -o new", Some("--force")),
        ("list m1.radar --frobnicate", None),
        ("best m1.radar --frobnicate -o new", None),
        ("check -z m1.radar", None),
        ("list --kind 1 m1.radar", None),
        ("shorter m1.radar m2.radar -o new", None),
    ];
    for (call, near) in cases {
        let notes = folder.run(call).usage(command(call));
        match near {
            Some(near) => assert!(notes.contains(&format!("did you mean {near}?")), "{notes}"),
            None => assert!(!notes.contains("did you mean"), "{notes}"),
        }
        assert!(!folder.path("new").exists(), "{call}");
    }
}

#[test]
fn a_missing_operand_and_one_too_many() {
    let folder = folder();
    for call in CALLS {
        let name = command(call);
        let without: Vec<_> = call
            .split(' ')
            .filter(|word| !word.ends_with(".radar") && *word != "raw")
            .collect();
        folder.run_all(&without).usage(name);
        if name != "check" {
            let notes = folder.run(&format!("{call} m3.radar")).usage(name);
            assert!(notes.contains("m3.radar"), "{notes}");
        }
        assert!(!folder.path("new").exists(), "{call}");
    }
    folder.run("shorter m1.radar").usage("shorter");
    folder.run("completion").usage("completion");
    let notes = folder.run("completion tcsh").usage("completion");
    for shell in ["tcsh", "bash", "zsh", "fish"] {
        assert!(notes.contains(shell), "{notes}");
    }
    folder.run("man m1.radar").usage("man");
    folder.run("help frobnicate").ended(2);
}

/// The call without an option and its value.
fn without<'a>(call: &'a str, option: &str) -> Vec<&'a str> {
    let mut words: Vec<_> = call.split(' ').collect();
    let at = words
        .iter()
        .position(|word| *word == option)
        .expect("the option");
    words.drain(at..at + 2);
    words
}

#[test]
fn a_required_option_missing() {
    let folder = folder();
    for call in CALLS {
        let name = command(call);
        let options = call.split(' ').filter(|word| word.starts_with('-'));
        for option in options.filter(|option| (name, *option) != ("box", "-o")) {
            let run = folder.run_all(without(call, option));
            let notes = run.usage(name);
            assert!(notes.contains(option), "{notes}");
            assert!(!folder.path("new").exists(), "{call}");
        }
    }
}

#[test]
fn an_option_without_its_value() {
    let folder = folder();
    for call in CALLS {
        let name = command(call);
        for option in call.split(' ').filter(|word| word.starts_with('-')) {
            let mut words = without(call, option);
            words.push(option);
            let notes = folder.run_all(&words).usage(name);
            assert!(notes.contains(option), "{notes}");
        }
    }
    folder.run("check --json=1 m1.radar").usage("check");
    folder.run("best m1.radar -o new --force=yes").usage("best");
    folder.run("best m1.radar -o").usage("best");
    assert!(!folder.path("new").exists());
}

#[test]
fn an_option_twice() {
    let folder = folder();
    for call in CALLS {
        let name = command(call);
        for option in call.split(' ').filter(|word| word.starts_with('-')) {
            let words: Vec<_> = call.split(' ').collect();
            let at = words
                .iter()
                .position(|word| *word == option)
                .expect("the option");
            let again = [&words[..], &words[at..at + 2]].concat();
            let notes = folder.run_all(&again).usage(name);
            assert!(notes.contains(option), "{notes}");
        }
    }
    folder.run("check --json --json m1.radar").usage("check");
    folder.run("check -q --quiet m1.radar").usage("check");
    folder.run("best m1.radar -f --force -o new").usage("best");
    folder.run("best m1.radar -o new -onew").usage("best");
    folder
        .run("best m1.radar -o new --output new")
        .usage("best");
    folder
        .run("change m1.radar --kind 1 --kind=1 -o new")
        .usage("change");
    assert!(!folder.path("new").exists());
}

#[test]
fn another_number_of_coordinates_than_the_picture_has() {
    let folder = folder();
    let calls = [
        "cell m1.radar --at 1,2",
        "rank m1.radar --at 0,0",
        "set m1.radar --at 1,0,0,0 --word 1 -o new",
        "box m1.radar --low 0,0 --high 1",
        "box m1.radar --low 0 --high 1,0",
        "count m1.radar --from 0,0 --to 1",
        "count m1.radar --from 0 --to 1,0",
        "cell m1.radar --at 0,0,0,0,0",
    ];
    for call in calls {
        folder.run(call).usage(command(call));
        assert!(!folder.path("new").exists(), "{call}");
    }
}

#[test]
fn every_command_takes_help_and_no_option_of_another() {
    let folder = folder();
    let all: Vec<_> = COMMANDS.iter().flat_map(|(_, options)| *options).collect();
    for (name, options) in COMMANDS {
        for help in ["--help", "-h"] {
            let run = folder.run(&format!("{name} {help}"));
            run.quiet();
            assert!(run.text().contains(name), "{}", run.story());
        }
        for option in all.iter().filter(|option| !options.contains(option)) {
            let run = folder.run(&format!("{name} {option}"));
            let notes = run.usage(name);
            assert!(notes.contains(*option), "{}", run.story());
        }
    }
    for name in OTHERS {
        folder.run(&format!("{name} --help")).quiet();
    }
}

#[test]
fn two_inputs_from_standard_input() {
    let folder = folder();
    let m2 = folder.read("m2.radar");
    folder.run_on(&m2, "shorter - -").usage("shorter");
    folder.run_on(&m2, "check - -").usage("check");
    folder.run_on(&m2, "check - m1.radar -").usage("check");
}

#[test]
fn words_that_are_not_utf_8() {
    let folder = folder();
    let strange = OsStr::from_bytes(b"\xff");
    folder.run_all([strange]).usage("");
    for call in CALLS {
        let name = command(call);
        let words: Vec<_> = call.split(' ').map(OsStr::new).collect();
        let unknown = OsStr::from_bytes(b"--\xff");
        folder
            .run_all([&words[..], &[unknown]].concat())
            .usage(name);
        for (at, word) in words.iter().enumerate().skip(1) {
            let option = word.as_bytes().starts_with(b"-");
            let mut changed = words.clone();
            if option && *word != OsStr::new("-o") {
                changed[at + 1] = strange;
                folder.run_all(changed).usage(name);
            }
        }
    }
    assert!(!folder.path("new").exists());
}
