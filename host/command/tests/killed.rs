//! The program ended from outside in the middle of its work.

mod support;

use std::ffi::OsString;
use std::fs;
use std::process::{Child, Stdio};
use std::thread::sleep;
use std::time::{Duration, Instant};
use support::files::Picture;
use support::{process, Folder, Outcome};

const CALL: &str = "change large --kind 1 --force -o target";

/// A folder with a picture file of some megabytes and the old target; the bytes of the old and the new target.
fn folder() -> (Folder, Vec<u8>, Vec<u8>) {
    let folder = Folder::new();
    let picture = Picture::scattered(&[1000, 1000], 0, 3);
    folder.write("large", &picture.file([2, 0, 0]));
    let old = picture.file([4, 1, 0]);
    folder.write("target", &old);
    let new = picture.file([1, 0, 0]);
    (folder, old, new)
}

/// Starts the program.
fn start(folder: &Folder, call: &str) -> Child {
    let mut command = folder.command();
    command.args(call.split(' ')).stdin(Stdio::null());
    command.stdout(Stdio::piped()).stderr(Stdio::piped());
    let command = process::ended_by_signals(&mut command);
    command.spawn().expect("the program")
}

/// How a started program ended.
fn outcome(mut child: Child) -> Outcome {
    process::end(&mut child, Duration::from_secs(60));
    let output = child.wait_with_output().expect("its end");
    Outcome {
        call: CALL.to_string(),
        status: output.status,
        out: output.stdout,
        err: output.stderr,
    }
}

/// The name of a temporary file of this target and process.
fn temporary(target: &str, child: u32) -> OsString {
    format!(".{target}.radar-archive-{child}.tmp").into()
}

/// Starts the call and waits for its temporary file; nothing if the call ended before it was seen.
fn in_the_middle(folder: &Folder, call: &str, target: &str) -> Option<Child> {
    let mut child = start(folder, call);
    let temporary = folder.path(temporary(target, child.id()));
    loop {
        if fs::symlink_metadata(&temporary).is_ok() {
            return Some(child);
        }
        if child.try_wait().expect("the program").is_some() {
            return None;
        }
    }
}

/// The whole time of the call.
fn whole_time(folder: &Folder, new: &[u8]) -> Duration {
    let begin = Instant::now();
    outcome(start(folder, CALL)).printed("");
    let whole = begin.elapsed();
    assert!(folder.read("target") == new, "the call itself");
    whole
}

/// Numbers from 0 to 1 by chance, the same in each run.
struct Chance(u64);

impl Chance {
    fn part(&mut self) -> f64 {
        self.0 = self
            .0
            .wrapping_mul(6_364_136_223_846_793_005)
            .wrapping_add(1);
        (self.0 >> 33) as f64 / (1u64 << 31) as f64
    }
}

/// Starts the call and kills it at a moment by chance: of the whole time, or of the time in which it writes.
fn killed(folder: &Folder, whole: Duration, moment: u32, chance: &mut Chance) -> u32 {
    let mut child = if moment % 3 == 0 {
        let child = in_the_middle(folder, CALL, "target");
        if moment % 2 == 0 {
            sleep(whole.mul_f64(0.5 * chance.part()));
        }
        child.unwrap_or_else(|| start(folder, CALL))
    } else {
        let child = start(folder, CALL);
        sleep(whole.mul_f64(1.1 * (f64::from(moment) + chance.part()) / 120.0));
        child
    };
    let id = child.id();
    child.kill().expect("kill");
    outcome(child);
    id
}

#[test]
fn killed_at_120_moments_the_target_is_old_or_new() {
    let (folder, old, new) = folder();
    let whole = whole_time(&folder, &new);
    let (mut olds, mut news, mut left) = (0, 0, 0);
    let mut chance = Chance(0x2545_f491_4f6c_dd1d);
    for moment in 0..120 {
        folder.write("target", &old);
        let id = killed(&folder, whole, moment, &mut chance);
        let target = folder.read("target");
        assert!(
            target == old || target == new,
            "moment {moment} of {whole:?}"
        );
        if target == old {
            olds += 1;
        } else {
            news += 1;
        }
        let mut names = folder.names();
        names.retain(|name| name != "large" && name != "target");
        if !names.is_empty() {
            assert_eq!(names, [temporary("target", id)]);
            folder.remove(&names[0]);
            left += 1;
        }
    }
    println!("{olds} times the old file, {news} the new one; {left} times killed in a write");
    assert!(olds > 10 && left > 5, "{olds} old, {news} new, {left} left");
}

#[test]
fn a_signal_removes_the_temporary_file() {
    let (folder, old, new) = folder();
    let names = folder.names();
    let signals = [("INT", 2), ("TERM", 15), ("HUP", 1)];
    for (name, number) in signals {
        let mut seen = 0;
        for _ in 0..20 {
            folder.write("target", &old);
            let Some(child) = in_the_middle(&folder, CALL, "target") else {
                continue;
            };
            process::signal(&child, name);
            let run = outcome(child);
            assert_eq!(folder.names(), names, "{name}: {}", run.story());
            let target = folder.read("target");
            match run.signal() {
                Some(signal) => {
                    assert_eq!(signal, number, "{}", run.story());
                    assert!(target == old || target == new, "{}", run.story());
                    seen += u32::from(target == old);
                }
                None => assert!(target == new && run.status.success(), "{}", run.story()),
            }
        }
        assert!(seen > 0, "{name} never hit the middle of a write");
    }
}

#[test]
fn a_signal_before_the_target_exists_leaves_no_target() {
    let (folder, ..) = folder();
    let names = folder.names();
    let mut seen = 0;
    for _ in 0..10 {
        let Some(child) = in_the_middle(&folder, "expand large -o fresh", "fresh") else {
            folder.remove("fresh");
            continue;
        };
        process::signal(&child, "TERM");
        let run = outcome(child);
        if run.signal() == Some(15) && !folder.path("fresh").exists() {
            seen += 1;
            assert_eq!(folder.names(), names, "{}", run.story());
        } else {
            assert_eq!(folder.read("fresh").len(), 4_000_000, "{}", run.story());
            folder.remove("fresh");
        }
    }
    assert!(seen > 0, "TERM never hit the middle of a write");
}

#[test]
fn a_signal_while_the_input_is_awaited() {
    let (folder, old, _) = folder();
    let names = folder.names();
    for (name, number) in [("INT", 2), ("TERM", 15), ("HUP", 1)] {
        let mut command = folder.command();
        command.args("change - --kind 1 --force -o target".split(' '));
        command
            .stdin(Stdio::piped())
            .stdout(Stdio::piped())
            .stderr(Stdio::piped());
        let command = process::ended_by_signals(&mut command);
        let mut child = command.spawn().expect("the program");
        let input = child.stdin.take();
        sleep(Duration::from_millis(100));
        process::signal(&child, name);
        let run = outcome(child);
        drop(input);
        assert_eq!(run.signal(), Some(number), "{}", run.story());
        assert_eq!(folder.names(), names);
        assert!(folder.read("target") == old);
    }
}

#[test]
fn an_ignored_hangup_stays_ignored() {
    let (folder, _, new) = folder();
    let script = format!("trap '' HUP; radar-archive {CALL} & kill -s HUP $!; wait $!");
    let mut command = folder.bash_command(&script);
    process::run(process::ended_by_signals(&mut command), None).printed("");
    assert!(folder.read("target") == new);
}

#[test]
fn killed_by_the_limit_of_a_files_size() {
    let (folder, old, _) = folder();
    for kilobytes in [1, 10, 100, 1000, 2500] {
        let script = format!("ulimit -f {kilobytes}; exec radar-archive {CALL}");
        let mut command = folder.bash_command(&script);
        let run = process::run(process::ended_by_signals(&mut command), None);
        assert_eq!(run.signal(), Some(25), "{}", run.story());
        assert!(folder.read("target") == old, "{kilobytes} kB");
        for name in folder.names() {
            if name != "large" && name != "target" {
                let name = name.to_string_lossy().into_owned();
                assert!(
                    name.starts_with(".target.radar-archive-") && name.ends_with(".tmp"),
                    "{name}"
                );
                folder.remove(&name);
            }
        }
    }
}

#[test]
fn what_a_killed_run_left_over_is_removed_by_the_next() {
    let (folder, old, new) = folder();
    let names = folder.names();
    let mut seen = 0;
    for _ in 0..20 {
        folder.write("target", &old);
        let Some(mut child) = in_the_middle(&folder, CALL, "target") else {
            continue;
        };
        child.kill().expect("kill");
        outcome(child);
        seen += u32::from(folder.names() != names);
        outcome(start(&folder, CALL)).printed("");
        assert!(folder.read("target") == new);
        assert_eq!(folder.names(), names);
    }
    assert!(seen > 0, "never killed in the middle of a write");
}

#[test]
fn what_is_not_left_over_of_this_target_stays() {
    let (folder, _, new) = folder();
    for name in [
        ".other.radar-archive-1.tmp",
        ".target.radar-archive-one.tmp",
    ] {
        folder.write(name, b"not of this target");
    }
    folder.write(".target.radar-archive-1.tmp", b"left over");
    let names = folder.names();
    folder
        .run("change large --kind 9 --force -o target")
        .refused(2);
    folder
        .run("change large --kind 1 -o target")
        .failed("target");
    assert_eq!(folder.names(), names, "a call that fails changes nothing");
    folder.run(CALL).printed("");
    assert!(folder.read("target") == new);
    let left: Vec<_> = names
        .iter()
        .filter(|name| *name != ".target.radar-archive-1.tmp")
        .collect();
    assert_eq!(folder.names().iter().collect::<Vec<_>>(), left);
}

#[test]
fn a_run_on_its_way_keeps_its_temporary_file() {
    let (folder, _, new) = folder();
    let names = folder.names();
    let runs: Vec<Child> = (0..12).map(|_| start(&folder, CALL)).collect();
    for run in runs {
        outcome(run).printed("");
    }
    assert!(folder.read("target") == new);
    assert_eq!(folder.names(), names);
}
