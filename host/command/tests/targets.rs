//! What a command may write to: new files, files to be replaced, links, and what is no file.

mod support;

use std::fs;
use std::os::unix::fs::{chown, symlink, MetadataExt, PermissionsExt};
use support::files::{raw, Picture, SAMPLE};
use support::process::is_root;
use support::Folder;

/// A call of each command that writes a file, without `-o`, with what it puts out.
fn writers() -> [(&'static str, Vec<u8>); 6] {
    let mut written = Picture::sample();
    written.words[6] = 41;
    [
        ("box m2.radar --low 2 --high 5", raw(&[7, 9, 0, 5])),
        ("expand m2.radar", raw(&SAMPLE)),
        (
            "make --dims 12 --kind 1 raw",
            Picture::sample().file([1, 0, 0]),
        ),
        ("set m2.radar --at 6 --word 41", written.file([2, 0, 0])),
        (
            "change m2.radar --kind 4 --width 2",
            Picture::sample().file([4, 2, 0]),
        ),
        ("best m2.radar", Picture::sample().file([3, 1, 4])),
    ]
}

fn folder() -> Folder {
    let folder = Folder::with_samples();
    folder.write("raw", &raw(&SAMPLE));
    folder
}

/// The permission bits of a file.
fn mode(folder: &Folder, name: &str) -> u32 {
    fs::metadata(folder.path(name)).expect("a file").mode() & 0o7777
}

#[test]
fn a_new_file_and_nothing_else_beside_it() {
    let folder = folder();
    for (call, expected) in writers() {
        let names = folder.names();
        folder.run(&format!("{call} -o new")).printed("");
        assert_eq!(folder.read("new"), expected, "{call}");
        folder.remove("new");
        assert_eq!(folder.names(), names, "{call}");
    }
}

#[test]
fn a_file_in_another_folder() {
    let folder = folder();
    folder.folder("deep/er");
    for (call, expected) in writers() {
        folder.run(&format!("{call} -o deep/er/new")).printed("");
        assert_eq!(folder.read("deep/er/new"), expected, "{call}");
        assert_eq!(fs::read_dir(folder.path("deep/er")).expect("it").count(), 1);
        folder.remove("deep/er/new");
        folder
            .run(&format!("{call} -o nowhere/new"))
            .failed("nowhere");
    }
}

#[test]
fn an_existing_file_is_not_touched_without_force() {
    let folder = folder();
    folder.write("old", b"old");
    let (names, state) = (folder.names(), folder.state("old"));
    for (call, _) in writers() {
        let run = folder.run(&format!("{call} -o old"));
        let notes = run.failed("old");
        assert!(notes.contains("--force"), "{}", run.story());
        assert_eq!(run.text(), "");
        assert_eq!(folder.state("old"), state, "{call}");
        assert_eq!(folder.names(), names, "{call}");
    }
}

#[test]
fn an_existing_file_is_refused_before_the_input_is_read() {
    let folder = folder();
    folder.write("old", b"old");
    folder.write("bad", b"bad");
    for call in [
        "best bad",
        "best missing",
        "expand bad",
        "make --dims 0 --kind 9 missing",
    ] {
        let notes = folder.run(&format!("{call} -o old")).failed("old");
        assert!(notes.contains("--force"), "{call}: {notes}");
    }
}

#[test]
fn force_replaces_and_keeps_the_permission_bits() {
    let folder = folder();
    for (call, expected) in writers() {
        for (option, bits) in [("--force", 0o600), ("-f", 0o640), ("--force", 0o777)] {
            folder.write("old", b"old");
            fs::set_permissions(folder.path("old"), PermissionsExt::from_mode(bits)).expect("bits");
            let names = folder.names();
            folder.run(&format!("{call} {option} -o old")).printed("");
            assert_eq!(folder.read("old"), expected, "{call}");
            assert_eq!(mode(&folder, "old"), bits, "{call}");
            assert_eq!(folder.names(), names, "{call}");
            folder.remove("old");
        }
    }
}

#[test]
fn force_keeps_the_owner_and_the_group() {
    if !is_root() {
        return println!("not tested: only root gives files away");
    }
    let folder = folder();
    folder.write("old", b"old");
    chown(folder.path("old"), Some(65_534), Some(65_533)).expect("owner");
    folder.run("best m2.radar -f -o old").printed("");
    let found = fs::metadata(folder.path("old")).expect("old");
    assert_eq!((found.uid(), found.gid()), (65_534, 65_533));
}

#[test]
fn force_replaces_a_longer_file_whole() {
    let folder = folder();
    folder.write("old", &vec![7; 100_000]);
    folder.run("best m2.radar -f -o old").printed("");
    assert_eq!(folder.read("old"), Picture::sample().file([3, 1, 4]));
}

#[test]
fn force_without_an_old_file_is_no_error() {
    let folder = folder();
    for (call, expected) in writers() {
        folder.run(&format!("{call} --force -o new")).printed("");
        assert_eq!(folder.read("new"), expected, "{call}");
        folder.remove("new");
    }
}

#[test]
fn a_new_file_has_the_bits_of_the_mask() {
    let folder = folder();
    for (mask, bits) in [("022", 0o644), ("077", 0o600), ("000", 0o666)] {
        folder
            .bash(&format!("umask {mask}; radar-archive best m2.radar -o new"))
            .ended(0);
        assert_eq!(mode(&folder, "new"), bits, "umask {mask}");
        folder.remove("new");
    }
}

#[test]
fn the_input_itself_as_the_target() {
    let folder = folder();
    let state = folder.state("m2.radar");
    folder
        .run("change m2.radar --kind 1 -o m2.radar")
        .failed("m2.radar");
    assert_eq!(folder.state("m2.radar"), state);
    folder
        .run("change m2.radar --kind 1 -o m2.radar --force")
        .printed("");
    assert_eq!(folder.read("m2.radar"), Picture::sample().file([1, 0, 0]));
    folder
        .run("set m2.radar --at 2 --word 8 -f -o m2.radar")
        .printed("");
    folder.run("cell m2.radar --at 2").printed("8\n");
}

#[test]
fn a_hard_link_keeps_the_old_file() {
    let folder = folder();
    folder.write("old", b"old");
    fs::hard_link(folder.path("old"), folder.path("other")).expect("a link");
    folder.run("best m2.radar -f -o old").printed("");
    assert_eq!(folder.read("other"), b"old");
    assert_eq!(folder.read("old").len(), 76);
}

#[test]
fn a_symbolic_link_is_followed() {
    let folder = folder();
    folder.folder("there");
    folder.write("there/file", b"old");
    symlink("there/file", folder.path("link")).expect("a link");
    symlink("link", folder.path("link to link")).expect("a link");
    for link in ["link", "link to link"] {
        let state = folder.state("there/file");
        let run = folder.run_all(["best", "m2.radar", "-o", link]);
        run.failed(link);
        assert_eq!(folder.state("there/file"), state);
        folder
            .run_all(["best", "m2.radar", "-f", "-o", link])
            .printed("");
        assert_eq!(folder.read("there/file"), Picture::sample().file([3, 1, 4]));
        let kind = fs::symlink_metadata(folder.path(link))
            .expect("the link")
            .file_type();
        assert!(kind.is_symlink(), "{link}");
        assert_eq!(fs::read_dir(folder.path("there")).expect("it").count(), 1);
        fs::write(folder.path("there/file"), b"old").expect("the old file");
    }
}

#[test]
fn a_link_to_nothing_makes_the_file_or_refuses() {
    let folder = folder();
    symlink("nothing", folder.path("link")).expect("a link");
    let run = folder.run("best m2.radar -o link");
    match run.status.code() {
        Some(0) => assert_eq!(folder.read("nothing"), Picture::sample().file([3, 1, 4])),
        _ => assert!(run.failed("link").contains("link") && !folder.path("nothing").exists()),
    }
    let kind = fs::symlink_metadata(folder.path("link"))
        .expect("the link")
        .file_type();
    assert!(kind.is_symlink(), "{}", run.story());
    symlink("round", folder.path("round")).expect("a link");
    folder.run("best m2.radar -o round").failed("round");
    folder.run("best m2.radar -f -o round").failed("round");
}

#[test]
fn what_is_no_regular_file_is_refused() {
    let folder = folder();
    folder.folder("folder");
    folder.bash("mkfifo fifo").ended(0);
    symlink("folder", folder.path("to folder")).expect("a link");
    let names = folder.names();
    for target in [
        "folder",
        "folder/",
        ".",
        "fifo",
        "/dev/null",
        "/dev/full",
        "to folder",
        "/",
    ] {
        for force in [&[][..], &["--force"]] {
            for (call, _) in writers() {
                let call = call
                    .split(' ')
                    .chain(["-o", target])
                    .chain(force.iter().copied());
                let run = folder.run_all(call);
                let notes = run.failed(target);
                assert!(notes.contains("-o -"), "{}", run.story());
                assert_eq!(folder.names(), names);
            }
        }
    }
    let null = fs::metadata("/dev/null").expect("/dev/null").mode() & 0o170_000;
    assert_eq!(null, 0o020_000, "/dev/null is a device still");
    assert_eq!(fs::read_dir(folder.path("folder")).expect("it").count(), 0);
}

#[test]
fn an_empty_name_and_a_path_through_a_file() {
    let folder = folder();
    let names = folder.names();
    let run = folder.run_all(["best", "m2.radar", "-o", ""]);
    assert!(matches!(run.status.code(), Some(2 | 3)), "{}", run.story());
    folder
        .run("best m2.radar -o m1.radar/new")
        .failed("m1.radar/new");
    let long = "n".repeat(256);
    folder
        .run_all(["best", "m2.radar", "-o", &long])
        .failed(&long);
    assert_eq!(folder.names(), names);
}

#[test]
fn the_longest_name_that_the_file_system_allows() {
    let folder = folder();
    let name = "n".repeat(255);
    folder
        .run_all(["best", "m2.radar", "-o", &name])
        .printed("");
    assert_eq!(folder.read(&name), Picture::sample().file([3, 1, 4]));
    folder
        .run_all(["change", "m2.radar", "--kind", "2", "-f", "-o", &name])
        .printed("");
    assert_eq!(folder.read(&name), Picture::sample().file([2, 0, 0]));
}
