//! The largest picture, the longest files, and what is longer.

mod support;

use std::fs::File;
use std::time::{Duration, Instant};
use support::files::{with_byte, with_field, Picture};
use support::Folder;

/// The longest picture file: kind 3, width 2, step 1, every cell stored.
const LONGEST_FILE: u64 = 167_772_212;

/// The longest raw words.
const LONGEST_RAW: u64 = 67_108_864;

const CELLS: u32 = 16_777_216;

/// A file of this length that begins with these bytes and has zeros after them.
fn sparse(folder: &Folder, name: &str, begin: &[u8], length: u64) {
    folder.write(name, begin);
    let file = File::options().write(true).open(folder.path(name));
    let file = file.expect("a file");
    file.set_len(length).expect("its length");
}

/// Wants a refusal with a number that names the file and the limit.
#[track_caller]
fn too_long(run: &support::Outcome, number: usize, name: &str, limit: u64) {
    let sentence = run.refused(number).replace(',', "");
    assert!(sentence.contains(&limit.to_string()), "{}", run.story());
    let start = format!("radar-archive: {name}: ");
    assert!(run.notes().starts_with(&start), "{}", run.story());
}

#[test]
fn a_longer_file_is_refused_without_reading_it() {
    let folder = Folder::with_samples();
    let m2 = folder.read("m2.radar");
    sparse(&folder, "one more", &m2, LONGEST_FILE + 1);
    sparse(&folder, "huge", &m2, 1 << 40);
    let names = folder.names();
    let begin = Instant::now();
    let calls = [
        "info",
        "cell --at 0",
        "rank --at 0",
        "position --rank 0",
        "count --from 0 --to 1",
        "box --low 0 --high 1",
        "expand -o new",
        "set --at 0 --word 1 -o new",
        "best -o new",
        "change --kind 1 -o new",
        "shorter m1.radar",
    ];
    for name in ["one more", "huge"] {
        for call in calls {
            let run = folder.run_all(call.split(' ').chain([name]));
            too_long(&run, 5, name, LONGEST_FILE);
            assert_eq!(run.text(), "", "{}", run.story());
        }
        let run = folder.run_all(["list", name]);
        too_long(&run, 5, name, LONGEST_FILE);
        assert_eq!(run.text(), "refused 5\n", "{}", run.story());
    }
    assert_eq!(folder.names(), names);
    let time = begin.elapsed();
    assert!(time < Duration::from_secs(15), "{time:?} for 24 calls");
}

#[test]
fn check_tells_a_longer_file_with_its_number() {
    let folder = Folder::with_samples();
    sparse(&folder, "huge", &folder.read("m2.radar"), 1 << 40);
    let why = "the file has 1,099,511,627,776 bytes, and no picture file has more than 167,772,212";
    let run = folder.run("check m1.radar huge");
    run.ended(1);
    let lines = format!("m1.radar: accepted\nhuge: refused, 5 counts: {why}\n");
    assert_eq!(run.text(), lines);
    let run = folder.run("check --json huge");
    let line = format!(
        "{{\"path\":\"huge\",\"accepted\":false,\"number\":5,\"word\":\"counts\",\"message\":\"{why}\",\"byte\":null,\"length\":null}}\n"
    );
    assert!(run.ended(1).text().starts_with(&line), "{}", run.story());
}

#[test]
fn a_longer_file_has_the_number_that_the_reader_gives() {
    let folder = Folder::with_samples();
    let m2 = folder.read("m2.radar");
    let empty = Picture::of(&[12], 0, vec![0; 12]).file([2, 0, 0]);
    let begins = [
        (5, m2.clone()),
        (5, empty),
        (2, with_byte(&m2, 0, 0)),
        (3, with_byte(&m2, 2, 1)),
        (4, with_field(&m2, 4, 0)),
        (5, with_field(&m2, 24, 13)),
    ];
    let mut whole = vec![0; LONGEST_FILE as usize + 1];
    for (number, begin) in begins {
        whole[..84].fill(0);
        whole[..begin.len()].copy_from_slice(&begin);
        assert_eq!(reader::number(&reader::check(&whole)) as usize, number);
        sparse(&folder, "long", &begin, LONGEST_FILE + 1);
        folder.run("cell long --at 0").refused(number);
    }
}

#[test]
fn longer_raw_words_are_refused_without_reading_them() {
    let folder = Folder::new();
    sparse(&folder, "raw", b"", LONGEST_RAW + 1);
    sparse(&folder, "huge", b"", 1 << 40);
    let names = folder.names();
    let begin = Instant::now();
    for name in ["raw", "huge"] {
        for (dims, limit) in [("16777216", LONGEST_RAW), ("3x4", 48)] {
            let call = format!("make --kind 1 -o new {name} --dims {dims}");
            too_long(&folder.run(&call), 7, name, limit);
        }
        let call = format!("make -o new {name} --dims");
        folder.run(&format!("{call} 12 --kind 9")).refused(2);
        folder
            .run(&format!("{call} 12 --kind 1 --step 1"))
            .refused(3);
        folder.run(&format!("{call} 0x4 --kind 1")).refused(4);
        folder.run(&format!("{call} 16777217 --kind 1")).refused(4);
    }
    assert_eq!(folder.names(), names);
    let time = begin.elapsed();
    assert!(time < Duration::from_secs(5), "{time:?} for 12 calls");
}

#[test]
fn an_input_without_end_is_refused() {
    let folder = Folder::with_samples();
    let names = folder.names();
    let begin = Instant::now();
    let run = folder.bash("cat m2.radar /dev/zero | radar-archive list -");
    too_long(&run, 5, "-", LONGEST_FILE);
    let run = folder.bash("cat /dev/zero | radar-archive make --dims 12 --kind 1 - -o new");
    too_long(&run, 7, "-", 48);
    let run = folder.bash("radar-archive make --dims 16777216 --kind 1 /dev/zero -o new");
    too_long(&run, 7, "/dev/zero", LONGEST_RAW);
    assert_eq!(folder.names(), names);
    let time = begin.elapsed();
    assert!(time < Duration::from_secs(20), "{time:?}");
}

#[test]
fn the_longest_input_is_read() {
    let folder = Folder::new();
    sparse(&folder, "zeros", b"", LONGEST_FILE);
    folder.run("list zeros").refused(2);
    sparse(&folder, "raw", b"", LONGEST_RAW);
    folder
        .run("make --dims 16777216 --kind 5 --step 64 raw -o empty")
        .printed("");
    assert_eq!(folder.read("empty").len(), 52);
    folder.run("cell empty --at 16777215").printed("0\n");
    folder.run("cell empty --at 16777216").refused(8);
    folder
        .run("make --dims 16777217 --kind 1 raw -o new")
        .refused(4);
    folder
        .run("make --dims 8388608 --kind 1 raw -o new")
        .refused(7);
}

/// The raw words of the largest picture; one cell in seven is empty, from position 3 on.
fn largest() -> Vec<u8> {
    let words = (0..CELLS).map(|position| if position % 7 == 3 { 0 } else { position + 1 });
    words.flat_map(u32::to_le_bytes).collect()
}

/// The commands that look at the largest picture, in the file `p`.
fn looked_at(folder: &Folder, stored: u32, runs: u32) {
    let info = folder.run("info p");
    info.quiet();
    for line in [
        format!("Stored        {stored} "),
        format!("Runs          {runs}"),
    ] {
        let found = info.text().lines().any(|other| other.starts_with(&line));
        assert!(found, "{line}\n{}", info.story());
    }
    folder.run("check p").printed("p: accepted\n");
    folder
        .run("cell p --at 15,1023,1023")
        .printed(&format!("{CELLS}\n"));
    let last = format!("{} {} {CELLS}\n", stored - 1, CELLS - 1);
    let list = folder.bash("set -o pipefail; radar-archive list p | tail -1");
    list.printed(&last);
    let rows = "radar-archive box p --low 0,0,0 --high 15,1023,1023";
    let counts = folder.bash(&format!("set -o pipefail; {rows} | wc -lw"));
    let counts = counts.ended(0).text();
    assert_eq!(
        counts.split_whitespace().collect::<Vec<_>>(),
        ["16399", "16777216"]
    );
}

/// The length of a file.
fn length(folder: &Folder, name: &str) -> u64 {
    std::fs::metadata(folder.path(name)).expect("a file").len()
}

#[test]
fn the_largest_picture_through_the_commands() {
    let folder = Folder::new();
    let raw = largest();
    folder.write("raw", &raw);
    let begin = Instant::now();
    let setting = "--kind base-offset --width 2 --step 1";
    folder
        .run(&format!("make --dims 16x1024x1024 {setting} raw -o p"))
        .printed("");
    let empty = (CELLS - 4) / 7 + 1;
    let stored = CELLS - empty;
    assert_eq!(length(&folder, "p"), 52 + 10 * u64::from(stored));
    looked_at(&folder, stored, empty + 1);
    folder.run("best p -o best").printed("");
    let shortest = 52 + 4 + 5 * u64::from(stored);
    assert_eq!(length(&folder, "best"), shortest, "kind 4, width 1");
    folder.remove("p");
    folder.run("expand best -o out").printed("");
    assert!(
        folder.read("out") == raw,
        "the words after make, best and expand"
    );
    let time = begin.elapsed();
    println!("make, info, check, cell, list, box, best and expand of {CELLS} cells: {time:?}");
    assert!(time < Duration::from_secs(60), "{time:?}");
}

#[test]
fn the_longest_file_goes_through() {
    let folder = Folder::new();
    let raw: Vec<u8> = (1..=CELLS).flat_map(u32::to_le_bytes).collect();
    folder.write("raw", &raw);
    let begin = Instant::now();
    let run = folder.bash(
        "set -o pipefail; radar-archive make --dims 16777216 --kind 3 --width 2 --step 1 raw -o - \
         | radar-archive change - --kind 1 -o p && radar-archive cell p --at @16777215",
    );
    run.printed("16777216\n");
    assert_eq!(length(&folder, "p"), 52 + 8 + u64::from(CELLS) * 4);
    let time = begin.elapsed();
    println!("make and change of the longest file: {time:?}");
    assert!(time < Duration::from_secs(60), "{time:?}");
}
