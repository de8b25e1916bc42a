//! `count`: the stored cells from one place to another.

mod support;

use support::files::{pictures, Picture, ALL_KINDS, SAMPLE};
use support::json::Json;
use support::Folder;

/// The words from one position to another that are not the empty word.
fn stored(picture: &Picture, from: usize, to: usize) -> usize {
    let words = picture.words[from..=to].iter();
    words.filter(|word| **word != picture.empty).count()
}

/// A folder with the file `p`: 6 bearings of 5 ranges.
fn bearings() -> (Folder, Picture) {
    let folder = Folder::new();
    let picture = Picture::scattered(&[6, 5], 0, 2);
    folder.write("p", &picture.file([6, 1, 2]));
    (folder, picture)
}

#[test]
fn every_pair_of_positions_of_the_sample_in_each_kind() {
    let folder = Folder::with_samples();
    for kind in 1..=6 {
        for from in 0..12 {
            for to in 0..12 {
                let run = folder.run(&format!("count m{kind}.radar --from {from} --to @{to}"));
                if from <= to {
                    let count = stored(&Picture::sample(), from, to);
                    run.printed(&format!("{count}\n")).quiet();
                    continue;
                }
                let told =
                    format!("--from {from} comes after --to {to} in row order; exchange them");
                assert_eq!(run.printed_nothing(1).refused(8), told);
            }
        }
    }
}

#[test]
fn the_numbers_of_the_sample() {
    let folder = Folder::with_samples();
    let cases = [
        // One stored cell, and one that is empty.
        ("2", "2", 1),
        ("6", "6", 0),
        // Both ends stored, the first, the last, neither.
        ("3", "5", 2),
        ("3", "6", 2),
        ("4", "10", 2),
        ("4", "6", 1),
        ("6", "9", 0),
        // The first and the last cell, which are empty.
        ("0", "0", 0),
        ("11", "11", 0),
        ("0", "11", 4),
        ("0x2", "@0x5", 3),
    ];
    for kind in 1..=6 {
        for (from, to, count) in cases {
            folder
                .run(&format!("count m{kind}.radar --from {from} --to {to}"))
                .printed(&format!("{count}\n"))
                .quiet();
        }
    }
}

#[test]
fn from_the_first_cell_to_the_last_is_all_in_every_kind() {
    let folder = Folder::new();
    for picture in pictures() {
        let cells = picture.words.len();
        let mut ends = vec![(0, cells - 1)];
        for turn in 1..5 {
            let (one, other) = (turn * 7919 % cells, turn * 104_729 % cells);
            ends.push((one.min(other), one.max(other)));
        }
        for setting in ALL_KINDS {
            folder.write("p", &picture.file(setting));
            for (from, to) in &ends {
                let count = stored(&picture, *from, *to);
                folder
                    .run(&format!("count p --from @{from} --to @{to}"))
                    .printed(&format!("{count}\n"));
            }
        }
    }
}

#[test]
fn whole_bearings() {
    let (folder, picture) = bearings();
    for from in 0..6 {
        for to in from..6 {
            let count = stored(&picture, 5 * from, 5 * to + 4);
            folder
                .run(&format!("count p --from {from},0 --to {to},4"))
                .printed(&format!("{count}\n"));
        }
    }
}

#[test]
fn every_pair_of_coordinates_in_row_order() {
    let (folder, picture) = bearings();
    for from in 0..30 {
        for to in from..30 {
            let [first, last] = [from, to].map(|at| format!("{},{}", at / 5, at % 5));
            let count = format!("{}\n", stored(&picture, from, to));
            folder
                .run(&format!("count p --from {first} --to {last}"))
                .printed(&count);
            if to % 5 == 0 {
                folder
                    .run(&format!("count p --from @{from} --to {last}"))
                    .printed(&count);
            }
        }
    }
}

#[test]
fn from_after_to_is_told_with_both_places() {
    let (folder, _) = bearings();
    let told = "--from 1,2 (@7) comes after --to 0,3 (@3) in row order; exchange them";
    for ends in [
        "--from 1,2 --to 0,3",
        "--from @7 --to 0,3",
        "--to @3 --from @7",
    ] {
        let run = folder.run(&format!("count p {ends}"));
        assert_eq!(run.printed_nothing(1).refused(8), told);
    }
    // Row order, not a box: the second coordinate may fall.
    folder.run("count p --from 0,3 --to 1,2").quiet();
    folder.run("box p --low 0,3 --high 1,2").refused(8);
}

#[test]
fn a_place_outside_is_told_with_its_option() {
    let folder = Folder::with_samples();
    let plane = Picture::of(&[3, 4], 0, SAMPLE.to_vec());
    folder.write("plane", &plane.file([1, 0, 0]));
    let cases = [
        (
            "m2.radar --from 12 --to 11",
            "--from 12 is outside the picture 12: the first coordinate is 0 to 11",
        ),
        (
            "m2.radar --from 0 --to 12",
            "--to 12 is outside the picture 12: the first coordinate is 0 to 11",
        ),
        (
            "m4.radar --from @12 --to @13",
            "--from @12 is outside the picture: its positions are 0 to 11",
        ),
        (
            "m4.radar --from @1 --to @4294967295",
            "--to @4294967295 is outside the picture: its positions are 0 to 11",
        ),
        (
            "plane --from 0,0 --to 2,4",
            "--to 2,4 is outside the picture 3x4: the second coordinate is 0 to 3",
        ),
        (
            "plane --from 3,0 --to 2,0",
            "--from 3,0 is outside the picture 3x4: the first coordinate is 0 to 2",
        ),
    ];
    for (call, told) in cases {
        let run = folder.run(&format!("count {call}"));
        assert_eq!(run.printed_nothing(1).refused(8), told);
    }
}

#[test]
fn standard_input_and_json() {
    let folder = Folder::with_samples();
    for kind in 1..=6 {
        let file = folder.read(format!("m{kind}.radar"));
        folder
            .run_on(&file, "count - --from 2 --to 5")
            .printed("3\n")
            .quiet();
        folder
            .run_on(&file, "count --json --from 6 --to 11 -")
            .printed("{\"count\":1}\n")
            .quiet();
    }
    for (ends, told) in [
        ("--from 5 --to 4", "--from 5 comes after --to 4"),
        ("--from 0 --to 12", "--to 12 is outside"),
    ] {
        let run = folder.run(&format!("count m2.radar {ends} --json"));
        let message = run.refused(8);
        assert!(message.starts_with(told), "{message}");
        let object = format!(
            "{{\"path\":\"m2.radar\",\"refused\":{{\"number\":8,\"word\":\"beyond\",\"message\":\"{message}\",\"byte\":null}}}}"
        );
        assert_eq!(run.json_lines(), [Json::of(&object)], "{}", run.story());
    }
}

#[test]
fn usage_errors() {
    let folder = Folder::with_samples();
    let cases = [
        ("m2.radar --from 2", "'count' wants --to PLACE"),
        ("m2.radar --to 5", "'count' wants --from PLACE"),
        ("m2.radar", "'count' wants --from PLACE"),
        ("--from 2 --to 5", "'count' wants FILE"),
        ("m2.radar --from - --to 5", "--from: '-' is no place"),
        ("m2.radar --from 2 --to five", "--to: 'five' is no place"),
        ("m2.radar --from 0 --to 1,2", "--to: 1,2 has 2 coordinates"),
        (
            "m2.radar --from 0,0 --to 1",
            "--from: 0,0 has 2 coordinates",
        ),
        ("m2.radar --from 2 --at 5", "unknown option '--at'"),
        ("m2.radar --form 2 --to 5", "did you mean --from?"),
        (
            "m2.radar m3.radar --from 2 --to 5",
            "'m3.radar' is one too many",
        ),
    ];
    for (call, told) in cases {
        let notes = folder.run(&format!("count {call}")).usage("count");
        assert!(notes.contains(told), "{told}: {notes}");
    }
    // The places are read before the file is.
    folder.run("count missing --from 2 --to x").usage("count");
    folder
        .run("count missing --from 2 --to 5")
        .failed("missing");
}

#[test]
fn the_sweep_of_the_help() {
    let folder = Folder::new();
    let picture = Picture::scattered(&[360, 512], 0, 50);
    folder.write("sweep.radar", &picture.file([4, 1, 0]));
    let count = |from: &str, to: &str| -> usize {
        let run = folder.run(&format!("count sweep.radar --from {from} --to {to}"));
        run.quiet().text().trim_end().parse().expect("a number")
    };
    let ten = stored(&picture, 350 * 512, 360 * 512 - 1);
    assert!(ten > 50, "{ten}");
    assert_eq!(count("350,0", "359,511"), ten);
    let past_north = stored(&picture, 0, 11 * 512 - 1);
    assert_eq!(count("0,0", "10,511"), past_north);
    let ranges = stored(&picture, 350 * 512 + 100, 350 * 512 + 200);
    assert_eq!(count("350,100", "350,200"), ranges);
    let help = folder.run("count --help").quiet().text();
    let example = "radar-archive count sweep.radar --from 350,0 --to 359,511\n";
    assert!(help.contains(example), "{help}");
}
