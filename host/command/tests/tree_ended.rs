//! `best` and `change` of a folder, ended in the middle.

mod support;

use std::process::Stdio;
use std::thread::sleep;
use std::time::{Duration, Instant};
use support::files::Picture;
use support::trees::paths;
use support::{process, Folder};

const FILES: usize = 40;

/// A folder `d` of files of some hundred kilobytes; the old and the new file.
fn folder() -> (Folder, Vec<u8>, Vec<u8>) {
    let folder = Folder::new();
    let picture = Picture::scattered(&[300, 300], 0, 3);
    let (old, new) = (picture.file([2, 0, 0]), picture.file([1, 0, 0]));
    fill(&folder, &old);
    (folder, old, new)
}

/// Puts the old files in the folder.
fn fill(folder: &Folder, old: &[u8]) {
    for number in 0..FILES {
        folder.folder(format!("d/{}", number % 4));
        folder.write(format!("d/{}/{number}", number % 4), old);
    }
}

/// Runs a call and sends it a signal after a time; how it ended.
fn ended_after(folder: &Folder, call: &str, name: &str, time: Duration) -> Option<i32> {
    let mut command = folder.command();
    command.args(call.split(' ')).stdin(Stdio::null());
    command.stdout(Stdio::null()).stderr(Stdio::null());
    let command = process::ended_by_signals(&mut command);
    let mut child = command.spawn().expect("the program");
    sleep(time);
    process::signal(&child, name);
    let status = process::end(&mut child, Duration::from_secs(60));
    std::os::unix::process::ExitStatusExt::signal(&status)
}

/// How long a call takes.
fn time_of(folder: &Folder, call: &str) -> Duration {
    let begin = Instant::now();
    folder.run(call).printed("");
    begin.elapsed()
}

/// How many files are the new one; each is the old or the new one.
fn new_ones(folder: &Folder, old: &[u8], new: &[u8]) -> usize {
    let is_new = |number: &usize| {
        let file = folder.read(format!("d/{}/{number}", number % 4));
        assert!(file == old || file == new, "{number}");
        file == new
    };
    (0..FILES).filter(is_new).count()
}

#[test]
fn each_file_is_old_or_new_and_nothing_is_left_over() {
    let (folder, old, new) = folder();
    let before = paths(&folder, "d");
    let call = "change d --kind 1 --force";
    let whole = time_of(&folder, call);
    assert_eq!(new_ones(&folder, &old, &new), FILES);
    let mut partly = 0;
    for moment in 0..30 {
        fill(&folder, &old);
        let (name, number) = [("INT", 2), ("TERM", 15), ("HUP", 1)][moment % 3];
        let time = whole.mul_f64((moment as f64 + 0.5) / 30.0);
        let signal = ended_after(&folder, call, name, time);
        assert!(signal.is_none() || signal == Some(number), "{signal:?}");
        let count = new_ones(&folder, &old, &new);
        assert!(signal.is_some() || count == FILES, "{count}");
        partly += usize::from(count > 0 && count < FILES);
        assert_eq!(paths(&folder, "d"), before, "moment {moment}");
    }
    assert!(
        partly > 0,
        "never ended between the first and the last file"
    );
}

#[test]
fn into_another_folder_each_file_is_whole() {
    let (folder, _, new) = folder();
    let whole = time_of(&folder, "change d --kind 1 -o all");
    let all = paths(&folder, "all");
    let mut partly = 0;
    for moment in 0..15 {
        let time = whole.mul_f64((f64::from(moment) + 0.5) / 15.0);
        ended_after(&folder, "change d --kind 1 -o out", "INT", time);
        if !folder.path("out").exists() {
            continue;
        }
        let found = paths(&folder, "out");
        for path in found.lines() {
            assert!(
                all.lines().any(|other| other == path),
                "{path} is left over"
            );
            let path = folder.path("out").join(path);
            assert!(
                path.is_dir() || std::fs::read(&path).expect("a file") == new,
                "{path:?}"
            );
        }
        partly += usize::from(found != all);
        std::fs::remove_dir_all(folder.path("out")).expect("out");
    }
    assert!(partly > 0, "never ended in the middle");
}
