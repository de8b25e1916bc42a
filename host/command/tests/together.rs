//! Several runs on one file at the same time.

mod support;

use std::process::{Child, Stdio};
use std::thread::sleep;
use std::time::Duration;
use support::files::Picture;
use support::{process, Folder};

/// A folder with a picture of 60 empty cells in the file `p`.
fn folder() -> Folder {
    let folder = Folder::new();
    folder.write("p", &Picture::of(&[60], 0, vec![0; 60]).file([2, 0, 0]));
    folder
}

/// Starts a call.
fn start(folder: &Folder, call: &str) -> Child {
    let mut command = folder.command();
    command.args(call.split(' ')).stdin(Stdio::null());
    command.stdout(Stdio::null()).stderr(Stdio::piped());
    command.spawn().expect("the program")
}

/// Wants that all end well.
fn all_end(started: Vec<Child>) {
    for mut child in started {
        process::end(&mut child, Duration::from_secs(60));
        let output = child.wait_with_output().expect("its end");
        assert!(output.status.success(), "{output:?}");
    }
}

/// Wants each cell to hold its position and 1, and nothing beside the file.
fn all_written(folder: &Folder) {
    let words: Vec<String> = (1..=60).map(|word| word.to_string()).collect();
    let row = format!("{}\n", words.join(" "));
    folder.run("box p --low 0 --high 59").printed(&row);
    assert_eq!(folder.names(), ["p"]);
}

#[test]
fn no_write_of_many_is_lost() {
    let folder = folder();
    let call = |at| format!("set p --at {at} --word {} -f -o p", at + 1);
    all_end((0..60).map(|at| start(&folder, &call(at))).collect());
    all_written(&folder);
}

#[test]
fn no_write_is_lost_while_the_setting_changes() {
    let folder = folder();
    let call = |at| match at % 10 {
        0 => "best p -f -o p".to_string(),
        5 => format!("change p --kind {} -f -o p", 1 + at % 2),
        _ => format!("set p --at {at} --word {} -f -o p", at + 1),
    };
    all_end((0..60).map(|at| start(&folder, &call(at))).collect());
    let call = |at| format!("set p --at {at} --word {} -f -o p", at + 1);
    all_end((0..12).map(|at| start(&folder, &call(5 * at))).collect());
    all_written(&folder);
}

#[test]
fn a_link_to_the_file_is_locked_as_the_file() {
    let folder = folder();
    std::os::unix::fs::symlink("p", folder.path("link")).expect("a link");
    let name = |at| if at % 2 == 0 { "p" } else { "link" };
    let call = |at| format!("set {0} --at {at} --word {1} -f -o {0}", name(at), at + 1);
    all_end((0..60).map(|at| start(&folder, &call(at))).collect());
    folder.remove("link");
    all_written(&folder);
}

#[test]
fn a_locked_file_is_waited_for() {
    let folder = folder();
    let old = folder.read("p");
    let holder = "exec 9<p; flock 9 && echo > locked; read -r";
    let mut command = std::process::Command::new("bash");
    command.args(["-c", holder]).current_dir(folder.path(""));
    let mut holder = command.stdin(Stdio::piped()).spawn().expect("bash");
    while !folder.path("locked").exists() {
        sleep(Duration::from_millis(1));
    }
    let mut run = start(&folder, "set p --at 0 --word 1 -f -o p");
    sleep(Duration::from_millis(300));
    assert!(run.try_wait().expect("the program").is_none());
    assert_eq!(folder.read("p"), old);
    folder.run("cell p --at 0").printed("0\n");
    folder.run("set p --at 0 --word 2 -o new").printed("");
    drop(holder.stdin.take());
    process::end(&mut holder, Duration::from_secs(60));
    all_end(vec![run]);
    folder.run("cell p --at 0").printed("1\n");
}

#[test]
fn a_call_that_awaits_standard_input_stops_no_other() {
    let folder = folder();
    let run = folder.bash(
        "set -o pipefail; (radar-archive set p --at 0 --word 1 -f -o p && cat p) \
         | timeout 10 radar-archive set - --at 1 --word 2 -f -o p",
    );
    run.printed("").quiet();
    folder.run("box p --low 0 --high 2").printed("1 2 0\n");
}
