//! `check --jobs`: the same output as with one, whatever is checked at a time.

mod support;

use std::fs;
use std::os::unix::fs::{symlink, PermissionsExt};
use support::files::{damaged, Picture, SETTINGS};
use support::Folder;

/// A folder `d` of a thousand files in ten subfolders: some damaged, some large, some that cannot be read.
fn thousand() -> Folder {
    let folder = Folder::new();
    let damaged = damaged();
    let large = Picture::scattered(&[300, 400], 0, 5).file([4, 1, 0]);
    for number in 0..1000 {
        let sub = format!("d/{}", number % 10);
        folder.folder(&sub);
        let name = format!("{sub}/{number:04}.radar");
        match number % 25 {
            3 => folder.write(&name, &damaged[number / 25 % damaged.len()].2),
            7 => folder.write(&name, &large),
            11 => symlink("nowhere", folder.path(&name)).expect("a link"),
            13 => {
                folder.write(&name, b"secret");
                let none = PermissionsExt::from_mode(0o000);
                fs::set_permissions(folder.path(&name), none).expect("permissions");
            }
            17 => symlink(".", folder.path(&name)).expect("a link"),
            _ => folder.write(&name, &Picture::sample().file(SETTINGS[number % 6])),
        }
    }
    folder
}

#[test]
fn order_and_output_are_those_of_one() {
    let folder = thousand();
    for options in ["", "--json", "--quiet", "--name *[02468].radar"] {
        let call = format!("exec ./program check {options} d");
        let one = folder.bash_as_nobody(&call);
        let both = folder.bash_as_nobody(&format!("{call} 2>&1")).out;
        let told = [&one.out[..], &one.err].concat();
        let denied = String::from_utf8_lossy(&told)
            .matches("Permission denied")
            .count();
        assert!(denied >= 20, "{}", one.ended(3).story());
        for jobs in ["-j 8", "-j 2", "--jobs=64", "-j0", "--jobs 1"] {
            let many = folder.bash_as_nobody(&format!("{call} {jobs}"));
            assert_eq!(many.status, one.status, "{}", many.story());
            assert!(many.out == one.out, "{}", many.story());
            assert!(many.err == one.err, "{}", many.story());
            let many = folder.bash_as_nobody(&format!("{call} {jobs} 2>&1"));
            assert!(many.out == both, "lines in another order: {}", many.call);
        }
    }
    let run = folder.bash_as_nobody("exec ./program check -j 8 d");
    let last = "960 files: 840 accepted, 40 refused, 80 not read\n";
    assert!(run.notes().ends_with(last), "{}", run.story());
}

#[test]
fn standard_input_among_others() {
    let folder = Folder::with_samples();
    let m2 = folder.read("m2.radar");
    let run = folder.run_on(&m2, "check -j 4 m1.radar - m3.radar missing m4.radar");
    run.failed("missing");
    assert_eq!(
        run.text(),
        "m1.radar: accepted\n-: accepted\nm3.radar: accepted\nm4.radar: accepted\n"
    );
    folder
        .run("check -j 64 m1.radar")
        .printed("m1.radar: accepted\n");
}

#[test]
fn a_broken_pipe_ends_the_check() {
    let folder = Folder::new();
    let long = "x".repeat(200);
    folder.folder(&long);
    let m1 = Picture::sample().file(SETTINGS[0]);
    for number in 0..2000 {
        folder.write(format!("{long}/{number:04}"), &m1);
    }
    for options in ["-j 8", "-j 8 --json", "-j 2"] {
        let run = folder.bash(&format!(
            "radar-archive check {options} {long} | head -1; exit ${{PIPESTATUS[0]}}"
        ));
        run.ended(5);
        assert_eq!(run.text().lines().count(), 1, "{}", run.story());
        assert_eq!(run.notes(), "", "{}", run.story());
    }
}

#[test]
fn where_no_thread_can_be_had_one_file_is_checked_at_a_time() {
    let folder = thousand();
    let one = folder.bash_as_nobody("exec ./program check d");
    let none = folder.bash_as_nobody("ulimit -u 1; exec ./program check -j 8 d");
    assert!(
        none.out == one.out && none.err == one.err,
        "{}",
        none.story()
    );
    assert_eq!(none.status, one.status);
}

#[test]
fn numbers_of_jobs() {
    let folder = Folder::with_samples();
    for jobs in ["65", "4294967295", "-1", "many", "", "1.5", "99999999999"] {
        let notes = folder
            .run_all(["check", "m1.radar", &format!("--jobs={jobs}")])
            .usage("check");
        assert!(notes.contains("-j"), "{notes}");
    }
    for jobs in ["1", "64", "0", "0x10"] {
        folder.run(&format!("check m1.radar -j{jobs}")).ended(0);
    }
    let notes = folder.run("check m1.radar -j=4").usage("check");
    assert!(notes.contains("'-j N' or '--jobs=N'"), "{notes}");
    folder.run("check m1.radar -j 2 --jobs 2").usage("check");
    folder.run("best m1.radar -j 2 -o new").usage("best");
}
