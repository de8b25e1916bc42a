//! Every command on the files M1 to M5 of the sample picture, and on its file of kind 6, with its exact output.

mod support;

use support::files::{raw, Picture, SAMPLE, SETTINGS};
use support::Folder;

/// The sample files by name, with their settings.
fn samples() -> impl Iterator<Item = (String, [u32; 3])> {
    (1..).map(|number| format!("m{number}.radar")).zip(SETTINGS)
}

#[test]
fn the_samples_are_the_files_of_the_sample_picture() {
    let folder = Folder::with_samples();
    for ((name, setting), length) in samples().zip([92, 84, 80, 76, 108, 80]) {
        let file = folder.read(&name);
        assert_eq!(file, Picture::sample().file(setting), "{name}");
        assert_eq!(file.len(), length, "{name}");
    }
}

#[test]
fn check_accepts_each() {
    let folder = Folder::with_samples();
    let run = folder.run("check m1.radar m2.radar m3.radar m4.radar m5.radar m6.radar");
    let lines: String = samples()
        .map(|(name, _)| format!("{name}: accepted\n"))
        .collect();
    run.printed(&lines);
    assert_eq!(run.notes(), "6 files: 6 accepted, 0 refused, 0 not read\n");
}

#[test]
fn check_in_the_order_of_the_operands() {
    let folder = Folder::with_samples();
    let run = folder.run("check m3.radar m1.radar m3.radar");
    run.printed("m3.radar: accepted\nm1.radar: accepted\nm3.radar: accepted\n");
    assert_eq!(run.notes(), "3 files: 3 accepted, 0 refused, 0 not read\n");
}

#[test]
fn check_quiet_says_nothing_where_all_is_well() {
    let folder = Folder::with_samples();
    for option in ["-q", "--quiet"] {
        folder
            .run(&format!("check {option} m1.radar m2.radar"))
            .printed("")
            .quiet();
        folder.run(&format!("check {option} .")).printed("").quiet();
    }
    folder.write("bad", b"bad");
    let run = folder.run("check --quiet m1.radar bad");
    run.ended(1);
    assert_eq!(run.notes(), "2 files: 1 accepted, 1 refused, 0 not read\n");
    let run = folder.run("check --quiet m1.radar missing");
    run.failed("missing");
    assert!(run.notes().ends_with(" 1 not read\n"), "{}", run.story());
}

#[test]
fn list_prints_what_the_lister_prints() {
    let folder = Folder::with_samples();
    for (name, [kind, ..]) in samples() {
        let lines = format!("{kind} 12 4\n0 2 7\n1 3 9\n2 5 5\n3 10 300\n");
        folder.run(&format!("list {name}")).printed(&lines).quiet();
    }
}

#[test]
fn cell_gives_every_word() {
    let folder = Folder::with_samples();
    for (name, _) in samples() {
        for (position, word) in SAMPLE.iter().enumerate() {
            let by_position = folder.run(&format!("cell {name} --at @{position}"));
            by_position.printed(&format!("{word}\n")).quiet();
        }
        let hex = folder.run(&format!("cell {name} --at 10 --hex"));
        hex.printed("0x0000012c\n").quiet();
    }
}

/// What `rank` finds at each position: the cell is stored or empty, and so many stored cells come before it.
const RANKS: [(bool, u32); 12] = [
    (false, 0),
    (false, 0),
    (true, 0),
    (true, 1),
    (false, 2),
    (true, 2),
    (false, 3),
    (false, 3),
    (false, 3),
    (false, 3),
    (true, 3),
    (false, 4),
];

#[test]
fn rank_gives_every_rank_and_the_number_before_every_empty_cell() {
    let folder = Folder::with_samples();
    for (name, _) in samples() {
        let (mut places, mut lines) = (String::new(), String::new());
        for (position, (stored, before)) in RANKS.into_iter().enumerate() {
            let line = match stored {
                true => format!("{before}\n"),
                false => format!("empty, {before} stored before\n"),
            };
            let run = folder.run(&format!("rank {name} --at {position}"));
            run.printed(&line).quiet();
            places += &format!("@{position}\n");
            lines += &line;
        }
        let run = folder.run_on(places.as_bytes(), &format!("rank {name} --at -"));
        run.printed(&lines).quiet();
    }
}

#[test]
fn rank_with_json_always_has_the_number_before() {
    let folder = Folder::with_samples();
    for (name, _) in samples() {
        let (mut places, mut lines) = (String::new(), String::new());
        for (position, (stored, before)) in RANKS.into_iter().enumerate() {
            let rank = match stored {
                true => before.to_string(),
                false => "null".to_string(),
            };
            let members = format!("\"rank\":{rank},\"before\":{before}}}\n");
            let run = folder.run(&format!("rank {name} --json --at {position}"));
            run.printed(&format!("{{{members}")).quiet();
            places += &format!("{position}\n");
            lines += &format!("{{\"position\":{position},\"coordinates\":[{position}],{members}");
        }
        let run = folder.run_on(places.as_bytes(), &format!("rank {name} --json --at -"));
        run.printed(&lines).quiet();
    }
}

#[test]
fn position_gives_every_position() {
    let folder = Folder::with_samples();
    for (name, _) in samples() {
        for (rank, position) in [2, 3, 5, 10].iter().enumerate() {
            let run = folder.run(&format!("position {name} --rank {rank}"));
            run.printed(&format!("{position} {position}\n")).quiet();
        }
    }
}

#[test]
fn box_prints_a_row() {
    let folder = Folder::with_samples();
    for (name, _) in samples() {
        let run = folder.run(&format!("box {name} --low 2 --high 5"));
        run.printed("7 9 0 5\n").quiet();
        let one = folder.run(&format!("box {name} --low @10 --high @10 --hex"));
        one.printed("0x0000012c\n").quiet();
        let whole = folder.run(&format!("box {name} --low 0 --high 11"));
        whole.printed("0 0 7 9 0 5 0 0 0 0 300 0\n").quiet();
    }
}

#[test]
fn box_and_expand_put_out_raw_words() {
    let folder = Folder::with_samples();
    for (name, _) in samples() {
        let run = folder.run(&format!("box {name} --low 2 --high 5 -o {name}.box"));
        run.printed("");
        assert_eq!(folder.read(format!("{name}.box")), raw(&[7, 9, 0, 5]));
        folder
            .run(&format!("expand {name} -o {name}.raw"))
            .printed("");
        assert_eq!(folder.read(format!("{name}.raw")), raw(&SAMPLE));
    }
}

#[test]
fn make_gives_each_sample() {
    let folder = Folder::with_samples();
    folder.write("raw", &raw(&SAMPLE));
    for (name, [kind, width, step]) in samples() {
        let setting = format!("--kind {kind} --width {width} --step {step}");
        folder
            .run(&format!("make --dims 12 {setting} raw -o new"))
            .printed("");
        assert_eq!(folder.read("new"), folder.read(name));
        folder.remove("new");
    }
}

#[test]
fn change_turns_each_sample_into_each() {
    let folder = Folder::with_samples();
    for (from, _) in samples() {
        for (to, [kind, width, step]) in samples() {
            let setting = format!("--kind {kind} --width {width} --step {step}");
            folder
                .run(&format!("change {from} {setting} -o new"))
                .printed("");
            assert_eq!(folder.read("new"), folder.read(to));
            folder.remove("new");
        }
    }
}

#[test]
fn set_writes_a_cell_in_the_setting_of_the_file() {
    let folder = Folder::with_samples();
    let (mut written, mut emptied) = (Picture::sample(), Picture::sample());
    written.words[6] = 41;
    emptied.words[3] = 0;
    for (name, setting) in samples() {
        folder
            .run(&format!("set {name} --at 6 --word 41 -o {name}.41"))
            .printed("");
        assert_eq!(folder.read(format!("{name}.41")), written.file(setting));
        for word in ["empty", "0"] {
            folder
                .run(&format!("set {name} --at @3 --word {word} -o new"))
                .printed("");
            assert_eq!(folder.read("new"), emptied.file(setting));
            folder.remove("new");
        }
    }
}

#[test]
fn shorter_names_the_shorter_file() {
    let folder = Folder::with_samples();
    folder
        .run("shorter m1.radar m2.radar")
        .printed("m2.radar\n")
        .quiet();
    folder
        .run("shorter m4.radar m5.radar")
        .printed("m4.radar\n")
        .quiet();
    folder
        .run("shorter m6.radar m4.radar")
        .printed("m4.radar\n")
        .quiet();
    folder
        .run("shorter m6.radar m3.radar")
        .printed("m6.radar\n")
        .quiet();
    let copy = folder.read("m3.radar");
    folder.write("copy", &copy);
    folder
        .run("shorter copy m3.radar")
        .printed("copy\n")
        .quiet();
    folder
        .run("shorter m3.radar copy")
        .printed("m3.radar\n")
        .quiet();
}

#[test]
fn best_is_kind_3_with_the_lowest_setting() {
    let folder = Folder::with_samples();
    for (name, setting) in samples() {
        let run = folder.run(&format!("best {name} -o new"));
        run.printed("");
        assert_eq!(folder.read("new"), Picture::sample().file([3, 1, 4]));
        let before = Picture::sample().file(setting).len().to_string();
        for word in ["--width 1", "--step 4", "76", &before] {
            assert!(run.notes().contains(word), "{word}\n{}", run.story());
        }
        folder.remove("new");
    }
}
