//! Running a program to its end, with a limit of time.

use super::Outcome;
use std::ffi::c_int;
use std::io::{Read, Write};
use std::os::unix::process::CommandExt;
use std::process::{Child, Command, Stdio};
use std::thread;
use std::time::{Duration, Instant};

/// The longest that any run may take; a run that hangs fails its test.
const LONGEST: Duration = Duration::from_secs(120);

/// Hang-up, interrupt, quit, termination, and a file past the limit of its size.
const ENDING: [c_int; 5] = [1, 2, 3, 15, 25];

/// The handler that stands for what a signal does by itself.
const DEFAULT: usize = 0;

/// What the system's library has.
mod system {
    extern "C" {
        pub fn signal(number: super::c_int, handler: usize) -> usize;
        pub fn umask(mask: u32) -> u32;
    }
}

/// Has new files and folders readable by everybody, also where the tests were started with another mask.
pub fn usual_mask() {
    // SAFETY: the call takes a plain number.
    unsafe { system::umask(0o022) };
}

/// Has signals end the program, also where the tests were started with some of them ignored, as by nohup or in the background.
pub fn ended_by_signals(command: &mut Command) -> &mut Command {
    let by_default = || {
        for number in ENDING {
            // SAFETY: the handler is one that the system knows.
            unsafe { system::signal(number, DEFAULT) };
        }
        Ok(())
    };
    // SAFETY: the closure calls `signal` alone, which may be called between fork and exec.
    unsafe { command.pre_exec(by_default) }
}

/// Runs a command to its end. Without input, standard input is empty.
pub fn run(command: &mut Command, input: Option<&[u8]>) -> Outcome {
    let stdin = input.map_or(Stdio::null(), |_| Stdio::piped());
    let mut child = command
        .stdin(stdin)
        .stdout(Stdio::piped())
        .stderr(Stdio::piped())
        .spawn()
        .unwrap_or_else(|error| panic!("{command:?}: {error}"));
    let mut pipe = child.stdin.take();
    let mut out = child.stdout.take().expect("standard output");
    let mut err = child.stderr.take().expect("standard error");
    thread::scope(|scope| {
        scope.spawn(move || {
            if let (Some(pipe), Some(input)) = (&mut pipe, input) {
                let _ = pipe.write_all(input); // the program may end without reading all
            }
        });
        let out = scope.spawn(move || all(&mut out));
        let err = scope.spawn(move || all(&mut err));
        let status = end(&mut child, LONGEST);
        Outcome {
            call: format!("{command:?}"),
            status,
            out: out.join().expect("standard output"),
            err: err.join().expect("standard error"),
        }
    })
}

/// Waits for the end of a process; after the limit it is killed and the test fails.
pub fn end(child: &mut Child, limit: Duration) -> std::process::ExitStatus {
    let start = Instant::now();
    loop {
        if let Some(status) = child.try_wait().expect("a process of this test") {
            return status;
        }
        if start.elapsed() > limit {
            let _ = child.kill();
            let _ = child.wait();
            panic!("no end after {limit:?}");
        }
        thread::sleep(Duration::from_millis(1));
    }
}

/// Sends a signal, by its name, to a process of this test.
pub fn signal(child: &Child, name: &str) {
    let status = Command::new("kill")
        .args(["-s", name, &child.id().to_string()])
        .status();
    assert!(
        status.is_ok_and(|status| status.success()),
        "kill -s {name}"
    );
}

/// Whether this test runs with all permissions.
pub fn is_root() -> bool {
    let id = Command::new("id").arg("-u").output().expect("id");
    id.stdout == b"0\n"
}

fn all(pipe: &mut impl Read) -> Vec<u8> {
    let mut bytes = Vec::new();
    pipe.read_to_end(&mut bytes).expect("a pipe");
    bytes
}
