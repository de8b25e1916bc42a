//! Standard input and output, broken and full pipes.

mod support;

use support::files::{raw, Picture, SAMPLE, SETTINGS};
use support::Folder;

#[test]
fn the_input_from_standard_input() {
    let folder = Folder::with_samples();
    let m3 = folder.read("m3.radar");
    let run = folder.run_on(&m3, "check -");
    run.ended(0);
    assert!(run.text().ends_with(": accepted\n"), "{}", run.story());
    let lines = "3 12 4\n0 2 7\n1 3 9\n2 5 5\n3 10 300\n";
    folder.run_on(&m3, "list -").printed(lines).quiet();
    folder
        .run_on(&m3, "cell - --at 10")
        .printed("300\n")
        .quiet();
    folder.run_on(&m3, "rank --at 5 -").printed("2\n").quiet();
    folder
        .run_on(&m3, "position - --rank 3")
        .printed("10 10\n")
        .quiet();
    let counted = folder.run_on(&m3, "count - --from 2 --to 9");
    counted.printed("3\n").quiet();
    folder
        .run_on(&m3, "box - --low 2 --high 3")
        .printed("7 9\n")
        .quiet();
    folder
        .run_on(&m3, "shorter m1.radar -")
        .printed("-\n")
        .quiet();
    folder
        .run_on(&m3, "shorter - m4.radar")
        .printed("m4.radar\n")
        .quiet();
    let info = folder.run_on(&m3, "info -");
    assert!(
        info.quiet().text().contains("\nLength        80 bytes\n"),
        "{}",
        info.story()
    );
    folder
        .run_on(
            &raw(&SAMPLE),
            "make --dims 12 --kind 3 --width 1 --step 2 - -o new",
        )
        .printed("");
    assert_eq!(folder.read("new"), m3);
}

#[test]
fn a_file_named_like_standard_input() {
    let folder = Folder::new();
    folder.write("-", &Picture::sample().file(SETTINGS[1]));
    folder.run("cell ./- --at 10").printed("300\n").quiet();
    folder.run("cell - --at 10").refused(1);
}

#[test]
fn the_output_to_standard_output() {
    let folder = Folder::with_samples();
    let names = folder.names();
    let m3 = folder.read("m3.radar");
    let run = folder.run("expand m3.radar -o -");
    run.ended(0);
    assert_eq!(run.out, raw(&SAMPLE));
    assert_eq!(
        folder
            .run("box m3.radar --low 2 --high 3 -o -")
            .ended(0)
            .out,
        raw(&[7, 9])
    );
    assert_eq!(
        folder
            .run("change m1.radar --kind 3 --width 1 --step 2 -o -")
            .ended(0)
            .out,
        m3
    );
    assert_eq!(
        folder
            .run("change m1.radar --kind 3 --width 1 --step 2 -o-")
            .ended(0)
            .out,
        m3
    );
    assert_eq!(
        folder.run("best m3.radar -o -").ended(0).out,
        Picture::sample().file([3, 1, 4])
    );
    assert_eq!(
        folder.run("set m3.radar --at 2 --word 7 -o -").ended(0).out,
        m3
    );
    let made = folder.run_on(
        &raw(&SAMPLE),
        "make --dims 12 --kind 3 --width 1 --step 2 - -o -",
    );
    assert_eq!(made.ended(0).out, m3);
    assert_eq!(folder.names(), names);
}

#[test]
fn a_refusal_puts_nothing_on_standard_output() {
    let folder = Folder::with_samples();
    let calls = [
        (1, "expand - -o -"),
        (3, "change m1.radar --kind 1 --step 1 -o -"),
        (8, "set m1.radar --at 12 --word 1 -o -"),
        (10, "best m1.radar --max-length 60 -o -"),
        (7, "make --dims 12 --kind 1 - -o -"),
    ];
    for (number, call) in calls {
        let run = folder.run_on(b"", call);
        run.refused(number);
        assert!(run.out.is_empty(), "{}", run.story());
    }
}

#[test]
fn a_chain_of_commands() {
    let folder = Folder::with_samples();
    let chain = "radar-archive set m1.radar --at 0 --word 1 -o - | radar-archive change - --kind 5 --step 2 -o - \
                 | radar-archive best - -o - | radar-archive list -";
    let run = folder.bash(&format!("set -o pipefail; {chain}"));
    run.printed("3 12 5\n0 0 1\n1 2 7\n2 3 9\n3 5 5\n4 10 300\n");
}

/// A picture whose list and box are far longer than a pipe holds.
fn long() -> Picture {
    Picture::scattered(&[400, 500], 0, 2)
}

/// Calls with a long output, and who reads only the beginning of it.
const READERS_THAT_GO: [(&str, &str); 11] = [
    ("list p", "head -1"),
    ("box p --low 0,0 --high 399,499", "head -1"),
    ("box p --low 0,0 --high 399,499 --json", "head -c 1"),
    ("expand p -o -", "head -c 1"),
    ("box p --low 0,0 --high 399,499 -o -", "head -c 1"),
    ("make --dims 400x500 --kind 2 raw -o -", "head -c 1"),
    ("change p --kind 1 -o -", "head -c 1"),
    ("set p --at 0,0 --word 5 -o -", "head -c 1"),
    ("list p", "true"),
    ("--help", "true"),
    ("man", "true"),
];

#[test]
fn a_broken_pipe_ends_quietly() {
    let folder = Folder::new();
    folder.write("p", &long().file([2, 0, 0]));
    folder.write("raw", &long().raw());
    let name = "x".repeat(100);
    folder.folder(&name);
    for number in 0..1500 {
        folder.write(format!("{name}/{number}"), b"");
    }
    for (call, reader) in READERS_THAT_GO {
        let run = folder.bash(&format!(
            "radar-archive {call} | {reader}; exit ${{PIPESTATUS[0]}}"
        ));
        // A short text may all be in the pipe before its reader goes.
        let short = !call.contains(' ');
        let status = run.status.code();
        assert!(
            status == Some(5) || short && status == Some(0),
            "{}",
            run.story()
        );
        assert_eq!(run.notes(), "", "{}", run.story());
        assert_eq!(run.out.is_empty(), reader == "true", "{}", run.story());
    }
    let check = folder.bash(&format!(
        "radar-archive check {name} | head -1; exit ${{PIPESTATUS[0]}}"
    ));
    check.ended(5);
    assert!(
        check.text().contains("/0: refused, 1 short: "),
        "{}",
        check.story()
    );
    assert_eq!(check.notes(), "", "{}", check.story());
}

#[test]
fn a_check_that_nobody_reads_to_its_end_is_not_done() {
    let folder = Folder::new();
    let m1 = Picture::sample().file(SETTINGS[0]);
    let long = "x".repeat(200);
    folder.folder(&long);
    for number in 0..500 {
        folder.write(format!("{long}/{number:03}"), &m1);
    }
    folder.write(format!("{long}/zz"), b"bad");
    for options in ["", "--json "] {
        let run = folder.bash(&format!(
            "radar-archive check {options}{long} | head -1; exit ${{PIPESTATUS[0]}}"
        ));
        run.ended(5);
        assert_eq!(run.text().lines().count(), 1, "{}", run.story());
    }
    let gone = "sleep 0.3; exec radar-archive check";
    let run = folder.bash(&format!(
        "({gone} {long}/000) | true; exit ${{PIPESTATUS[0]}}"
    ));
    run.ended(5);
    assert_eq!(run.notes(), "", "{}", run.story());
}

#[test]
fn a_full_standard_output_is_said() {
    let folder = Folder::with_samples();
    folder.write("raw", &raw(&SAMPLE));
    let calls = [
        "check m1.radar",
        "check --json m1.radar",
        "info m1.radar",
        "list m1.radar",
        "cell m1.radar --at 2",
        "rank m1.radar --at 2",
        "position m1.radar --rank 0",
        "count m1.radar --from 0 --to 5",
        "box m1.radar --low 0 --high 1",
        "expand m1.radar -o -",
        "make --dims 12 --kind 1 raw -o -",
        "change m1.radar --kind 2 -o -",
        "best m1.radar -o -",
        "set m1.radar --at 2 --word 1 -o -",
        "shorter m1.radar m2.radar",
        "man",
        "completion bash",
        "help",
    ];
    for call in calls {
        let run = folder.bash(&format!("exec radar-archive {call} >/dev/full"));
        let notes = run.failed("tandard output");
        assert!(!notes.contains("panicked"), "{}", run.story());
    }
}

#[test]
fn a_closed_standard_output_is_said_before_anything_is_done() {
    let folder = Folder::with_samples();
    folder.write("raw", &raw(&SAMPLE));
    let names = folder.names();
    let m1 = folder.state("m1.radar");
    let calls = [
        "check m1.radar",
        "check --quiet missing",
        "check --json m1.radar",
        "list m1.radar",
        "cell m1.radar --at 2",
        "expand m1.radar -o -",
        "expand m1.radar -o new",
        "make --dims 12 --kind 1 raw -o new",
        "set m1.radar --at 2 --word 1 -f -o m1.radar",
        "frobnicate",
        "--help",
        "man",
    ];
    for call in calls {
        let run = folder.bash(&format!("exec radar-archive {call} >&-"));
        let notes = run.failed("standard output: is closed");
        assert_eq!(notes.lines().count(), 1, "{}", run.story());
        folder
            .bash(&format!("exec radar-archive {call} >&- 2>&-"))
            .ended(3);
    }
    assert_eq!(folder.names(), names);
    assert_eq!(folder.state("m1.radar"), m1);
    for elsewhere in [">/dev/null", "<&-", "<&- >/dev/null", "1<>/dev/null"] {
        let call = format!("exec radar-archive cell m1.radar --at 2 {elsewhere}");
        folder.bash(&call).quiet();
    }
}

#[test]
fn notes_on_a_full_standard_error_are_no_panic() {
    let folder = Folder::with_samples();
    let run = folder.bash("radar-archive check m1.radar 2>/dev/full");
    run.printed("m1.radar: accepted\n");
    folder.bash("radar-archive frobnicate 2>/dev/full").ended(2);
    folder
        .bash("radar-archive check missing 2>/dev/full")
        .ended(3);
    folder
        .bash("radar-archive list 2>&- m1.radar >/dev/null")
        .ended(0);
}
