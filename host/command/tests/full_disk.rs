//! A write that fails: the old file stays, and nothing is left beside it.

mod support;

use std::fs;
use std::io::Write;
use std::os::unix::fs::PermissionsExt;
use std::process::Stdio;
use std::thread::sleep;
use std::time::Duration;
use support::files::{raw, Picture, SAMPLE};
use support::{process, Folder};

/// A picture whose files and raw words have more than 64 kB.
fn large() -> Picture {
    Picture::scattered(&[100, 400], 0, 3)
}

/// A call of each command that writes a file, without `-o`.
const WRITERS: [&str; 6] = [
    "box large --low 0,0 --high 99,399",
    "expand large",
    "make --dims 100x400 --kind 1 raw",
    "set large --at 6,7 --word 41",
    "change large --kind 5 --step 3",
    "best large",
];

fn folder() -> Folder {
    let folder = Folder::new();
    folder.write("large", &large().file([1, 0, 0]));
    folder.write("raw", &large().raw());
    folder.write("old", b"old");
    folder
}

#[test]
fn a_file_too_large_for_the_file_system() {
    let folder = folder();
    let (names, state) = (folder.names(), folder.state("old"));
    for call in WRITERS {
        for (target, force) in [("new", ""), ("old", "--force")] {
            let limit = "trap '' XFSZ; ulimit -f 20";
            let run = folder.bash(&format!(
                "{limit}; exec radar-archive {call} {force} -o {target}"
            ));
            run.failed(target);
            assert_eq!(run.text(), "", "{}", run.story());
            assert_eq!(folder.names(), names, "{}", run.story());
            assert_eq!(folder.state("old"), state, "{}", run.story());
        }
    }
}

#[test]
fn the_same_calls_without_the_limit() {
    let folder = folder();
    for call in WRITERS {
        let run = folder.bash(&format!(
            "ulimit -f 2000; exec radar-archive {call} --force -o old"
        ));
        run.printed("");
        assert!(folder.read("old").len() > 65_536, "{}", run.story());
    }
}

/// Runs a script in a folder that is a file system of 64 kB, seen by the script alone. Nothing where that is not allowed.
fn on_a_small_file_system(folder: &Folder, script: &str) -> Option<support::Outcome> {
    let unshare = if process::is_root() {
        "unshare -m"
    } else {
        "unshare -Urm"
    };
    if !folder
        .bash(&format!("{unshare} mount -t tmpfs -o size=64k tmpfs small"))
        .status
        .success()
    {
        eprintln!("no file system can be mounted here: not tested");
        return None;
    }
    folder.write("script", script.as_bytes());
    let mount = "mount -t tmpfs -o size=64k tmpfs small && . ./script";
    Some(folder.bash(&format!("{unshare} bash -c '{mount}'")))
}

#[test]
fn a_full_disk() {
    let folder = folder();
    folder.folder("small");
    for call in WRITERS {
        let script = format!(
            "cp old small/old; before=$(stat -c %i small/old)\n\
             radar-archive {call} -o small/new; echo status $?\n\
             radar-archive {call} --force -o small/old; echo status $?\n\
             [ $before = $(stat -c %i small/old) ] && cmp old small/old && ls -A small\n\
             radar-archive change large --kind 1 -o - >/dev/null && echo fits; radar-archive best m -o small/m; ls -A small\n"
        );
        folder.write("m", &Picture::sample().file([1, 0, 0]));
        let Some(run) = on_a_small_file_system(&folder, &script) else {
            return;
        };
        run.printed("status 3\nstatus 3\nold\nfits\nm\nold\n");
        assert!(run.notes().contains("small/new"), "{}", run.story());
        assert!(run.notes().contains("o space left"), "{}", run.story());
    }
}

#[test]
fn a_read_only_folder() {
    let folder = folder();
    folder.folder("closed");
    folder.write("closed/old", b"old");
    let state = folder.state("closed/old");
    let bits = |bits| fs::set_permissions(folder.path("closed"), PermissionsExt::from_mode(bits));
    bits(0o555).expect("permissions");
    for call in WRITERS {
        folder
            .run_as_nobody(&format!("{call} -o closed/new"))
            .failed("closed/new");
        folder
            .run_as_nobody(&format!("{call} --force -o closed/old"))
            .failed("closed/old");
        assert_eq!(folder.state("closed/old"), state, "{call}");
        assert_eq!(
            fs::read_dir(folder.path("closed")).expect("it").count(),
            1,
            "{call}"
        );
    }
    bits(0o777).expect("permissions");
    folder.run_as_nobody("best large -o closed/new").printed("");
}

#[test]
fn an_input_without_the_right_to_read() {
    let folder = folder();
    folder.folder("open");
    fs::set_permissions(folder.path("open"), PermissionsExt::from_mode(0o777)).expect("bits");
    for name in ["large", "raw"] {
        fs::set_permissions(folder.path(name), PermissionsExt::from_mode(0o000)).expect("bits");
    }
    for call in WRITERS {
        let input = if call.contains("raw") { "raw" } else { "large" };
        let run = folder.run_as_nobody(&format!("{call} -o open/new"));
        run.failed(&format!("{input}: cannot be read: "));
        assert_eq!(
            fs::read_dir(folder.path("open")).expect("it").count(),
            0,
            "{call}"
        );
    }
}

#[test]
fn a_missing_input_and_a_folder_as_input() {
    let folder = folder();
    folder.folder("folder");
    let names = folder.names();
    for call in WRITERS {
        let takes_folders = call.starts_with("change") || call.starts_with("best");
        let others = if takes_folders {
            &["missing"][..]
        } else {
            &["missing", "folder"]
        };
        for other in others {
            let call = call.replace("large", other).replace("raw", other);
            let run = folder.run(&format!("{call} -o new"));
            run.failed(&format!("radar-archive: {other}: cannot be read: "));
            assert_eq!(folder.names(), names, "{}", run.story());
        }
    }
    for call in [
        "info X",
        "list X",
        "cell X --at 0",
        "shorter X large",
        "shorter large X",
    ] {
        for other in ["missing", "folder"] {
            let run = folder.run(&call.replace('X', other));
            run.failed(&format!("radar-archive: {other}: cannot be read: "));
        }
    }
}

#[test]
fn a_target_that_appears_in_the_meantime_is_not_replaced() {
    let folder = folder();
    let mut command = folder.command();
    command.args("make --dims 12 --kind 1 - -o new".split(' '));
    let mut child = command
        .stdin(Stdio::piped())
        .stderr(Stdio::piped())
        .spawn()
        .expect("the program");
    let mut input = child.stdin.take().expect("standard input");
    input.write_all(&raw(&SAMPLE)).expect("a pipe");
    sleep(Duration::from_millis(300));
    folder.write("new", b"theirs");
    let (names, state) = (folder.names(), folder.state("new"));
    drop(input);
    let output = child.wait_with_output().expect("its end");
    let notes = String::from_utf8_lossy(&output.stderr);
    assert_eq!(output.status.code(), Some(3), "{notes}");
    assert!(notes.contains("radar-archive: new: "), "{notes}");
    assert_eq!(folder.state("new"), state);
    assert_eq!(folder.names(), names);
}

#[test]
fn of_twenty_at_once_one_writes_the_new_file() {
    let folder = folder();
    let mut names = folder.names();
    names.push("new".into());
    names.sort();
    for _ in 0..3 {
        let script = "for i in {1..20}; do radar-archive best large -o new & jobs+=($!); done; \
                      for job in ${jobs[@]}; do wait $job; echo $?; done";
        let run = folder.bash(script);
        run.ended(0);
        let mut ends: Vec<_> = run.text().lines().map(str::to_string).collect();
        ends.sort();
        assert_eq!((ends.len(), &*ends[0]), (20, "0"), "{}", run.story());
        assert!(ends[1..].iter().all(|end| end == "3"), "{}", run.story());
        assert_eq!(folder.names(), names);
        let alone = folder.run("best large -o -").ended(0).out.clone();
        assert!(folder.read("new") == alone);
        folder.remove("new");
    }
}
