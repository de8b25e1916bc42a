//! `manifest` and its child sha256sum: missing, failing, ended with the run, and always waited for.

mod support;

use std::fs;
use std::os::unix::process::ExitStatusExt;
use std::process::{Child, Stdio};
use std::thread::sleep;
use std::time::{Duration, Instant};
use support::files::{Picture, SETTINGS};
use support::sums::{fake, folder, with_bin};
use support::{process, Folder};

#[test]
fn no_sha256sum() {
    let folder = folder();
    let (names, state) = (folder.names(), folder.state("d/MANIFEST.sha256"));
    for path in ["", "/nowhere", "bin"] {
        for call in [
            "write d --force",
            "write d -o new",
            "write d -o -",
            "verify d",
        ] {
            let mut command = folder.command();
            let words = call.split(' ');
            command.arg("manifest").args(words).env("PATH", path);
            let run = process::run(&mut command, None);
            run.failed("sha256sum: cannot be run: No such file or directory; ");
            assert_eq!(run.text(), "", "{}", run.story());
            assert_eq!(folder.names(), names);
            assert_eq!(folder.state("d/MANIFEST.sha256"), state);
        }
    }
}

/// Scripts in the place of sha256sum, and what is said of them.
const FAKES: [(&str, &str); 8] = [
    ("exit 7", "failed with status 7"),
    ("kill -9 $$", "failed: signal: 9"),
    ("echo no sum", "failed"),
    (
        "exec 1>&-; cat > /dev/null",
        "failed: what it printed is no sum",
    ),
    ("yes", "failed"),
    ("head -c 1000 | $real", "failed: Broken pipe"),
    ("cat > /dev/null; yes 0 | tr -d '\\n'", "failed"),
    ("(echo more; cat) | $real", "gives a wrong sum"),
];

/// Wants that each call fails because of sha256sum, and changes nothing.
#[track_caller]
fn fails(folder: &Folder, why: &str) {
    let state = folder.state("d/MANIFEST.sha256");
    for call in ["write d --force", "write d -o new", "verify -q d"] {
        folder.write("n", b"0");
        let run = with_bin(folder, &format!("manifest {call}"));
        run.failed(&format!("radar-archive: sha256sum: {why}"));
        assert_eq!(run.text(), "", "{}", run.story());
        assert_eq!(folder.state("d/MANIFEST.sha256"), state);
        assert!(!folder.path("new").exists());
    }
}

#[test]
fn a_sha256sum_that_fails_or_lies() {
    let folder = folder();
    let large = Picture::scattered(&[300, 300], 0, 2);
    folder.write("d/large", &large.file(SETTINGS[0]));
    folder.run("manifest write d --force").printed("");
    let good_at_first = "n=$(cat n); echo $((n + 1)) > n; [ $n -lt 3 ] && exec $real";
    for (script, why) in FAKES {
        fake(&folder, script);
        fails(&folder, why);
        if why.starts_with("failed") {
            fake(&folder, &format!("{good_at_first}\n{script}"));
            fails(&folder, why);
        }
    }
    fake(&folder, "exec $real");
    let run = with_bin(&folder, "manifest verify -q d");
    run.printed("").quiet();
}

/// Starts a call, and waits until a child of it runs.
fn started(folder: &Folder, call: &str) -> Child {
    let mut command = folder.command();
    command.args(call.split(' ')).stdin(Stdio::null());
    command.stdout(Stdio::piped()).stderr(Stdio::piped());
    let child = process::ended_by_signals(&mut command)
        .spawn()
        .expect("the program");
    let begin = Instant::now();
    while children(folder, child.id()).is_empty() {
        assert!(begin.elapsed() < Duration::from_secs(20), "no child");
    }
    child
}

/// The processes that a process started, and that have not ended.
fn children(folder: &Folder, parent: u32) -> String {
    let all = "cat /proc/[0-9]*/stat 2> /dev/null";
    let of_it = format!("{all} | grep ') [^Z] {parent} ' | cut -d ' ' -f 1");
    folder.bash(&of_it).text()
}

#[test]
fn a_signal_ends_the_run_and_its_child() {
    let folder = folder();
    fs::File::create(folder.path("d/long"))
        .and_then(|file| file.set_len(8_000_000_000))
        .expect("a long file");
    let (names, state) = (folder.names(), folder.state("d/MANIFEST.sha256"));
    for (name, number) in [("INT", 2), ("TERM", 15), ("HUP", 1), ("KILL", 9)] {
        let mut child = started(&folder, "manifest write d --force");
        sleep(Duration::from_millis(200));
        let of_it = children(&folder, child.id());
        assert_ne!(of_it, "", "no child");
        process::signal(&child, name);
        let status = process::end(&mut child, Duration::from_secs(60));
        assert_eq!(status.signal(), Some(number));
        assert_eq!(folder.names(), names);
        assert_eq!(folder.state("d/MANIFEST.sha256"), state);
        for id in of_it.split_whitespace() {
            let lives = format!("grep -qs ') [^Z] ' /proc/{id}/stat");
            let gone =
                format!("for i in {{1..100}}; do {lives} || exit 0; sleep 0.1; done; exit 1");
            folder.bash(&gone).ended(0);
        }
    }
}

#[test]
fn no_child_is_left_unwaited_for() {
    let folder = folder();
    let all = "cat /proc/[0-9]*/stat 2> /dev/null";
    fake(
        &folder,
        &format!("{all} | grep -E \") [A-Z] $PPID \" >> states; exec $real"),
    );
    with_bin(&folder, "manifest verify -q d").printed("");
    let states = String::from_utf8(folder.read("states")).expect("text");
    assert!(states.lines().count() >= 4, "{states}");
    assert!(!states.contains(") Z "), "{states}");
    let ignored = "trap '' CHLD; exec radar-archive manifest verify -q d";
    folder.bash(ignored).printed("").quiet();
}
