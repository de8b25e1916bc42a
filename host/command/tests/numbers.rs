//! Numbers in decimal and hexadecimal, kinds by name and number, and the ways to write an option.

mod support;

use support::files::{raw, Picture, SAMPLE, SETTINGS};
use support::Folder;

/// A folder with the sample files and the sample's raw words.
fn folder() -> Folder {
    let folder = Folder::with_samples();
    folder.write("raw", &raw(&SAMPLE));
    folder
}

#[test]
fn kinds_by_name_and_by_number() {
    let folder = folder();
    let names = [
        "runs",
        "positions",
        "base-offset",
        "jumps",
        "paged-runs",
        "pointed-jumps",
    ];
    for (name, [kind, width, step]) in names.iter().zip(SETTINGS) {
        let file = Picture::sample().file([kind, width, step]);
        for kind in [
            name.to_string(),
            kind.to_string(),
            format!("{kind:#x}"),
            format!("{kind:#04x}"),
        ] {
            let setting = format!("--kind {kind} --width {width} --step {step}");
            folder
                .run(&format!("make --dims 12 {setting} raw -o made"))
                .printed("");
            folder
                .run(&format!("change m1.radar {setting} -o changed"))
                .printed("");
            assert_eq!(folder.read("made"), file, "{setting}");
            assert_eq!(folder.read("changed"), file, "{setting}");
            folder.remove("made");
            folder.remove("changed");
        }
    }
}

#[test]
fn any_number_of_32_bits_goes_to_the_engine_as_a_kind() {
    let folder = folder();
    for kind in ["0", "7", "257", "0x101", "4294967295", "0xffffffff"] {
        folder
            .run(&format!("make --dims 12 --kind {kind} raw -o new"))
            .refused(2);
        folder
            .run(&format!("change m1.radar --kind {kind} -o new"))
            .refused(2);
    }
    for setting in [
        "3 --width 257 --step 1",
        "5 --step 258",
        "6 --width 1 --step 256",
        "6 --step 1",
        "1 --step 256",
        "2 --width 0xffffffff",
    ] {
        folder
            .run(&format!("make --dims 12 --kind {setting} raw -o new"))
            .refused(3);
        folder
            .run(&format!("change m1.radar --kind {setting} -o new"))
            .refused(3);
    }
}

#[test]
fn hexadecimal_wherever_a_number_stands() {
    let folder = folder();
    folder.run("cell m2.radar --at 0xa").printed("300\n");
    folder.run("cell m2.radar --at @0xA").printed("300\n");
    folder
        .run("position m2.radar --rank 0x3")
        .printed("10 10\n");
    folder
        .run("box m2.radar --low 0x2 --high 0x0005")
        .printed("7 9 0 5\n");
    folder.run("make --dims 12 --empty 0x0 --kind 0x3 --width 0x1 --step 0x2 --max-length 0x50 raw -o made").printed("");
    assert_eq!(folder.read("made"), folder.read("m3.radar"));
    folder
        .run("make --dims 3x4 --kind 2 raw -o plane")
        .printed("");
    assert_eq!(
        folder.read("plane"),
        Picture::of(&[3, 4], 0, SAMPLE.to_vec()).file([2, 0, 0])
    );
    folder.run("cell plane --at 0x0,0x3").printed("9\n");
    folder
        .run("set m2.radar --at 0x2 --word 0xffffffff -o written")
        .printed("");
    folder.run("cell written --at 2").printed("4294967295\n");
    folder
        .run("cell written --at 2 --hex")
        .printed("0xffffffff\n");
    folder
        .run("cell written --at 0 --hex")
        .printed("0x00000000\n");
}

/// Calls with a number, for which `N` stands.
const WITH_A_NUMBER: [&str; 11] = [
    "cell m2.radar --at @N",
    "cell m2.radar --at N",
    "position m2.radar --rank N",
    "count m2.radar --from N --to 11",
    "count m2.radar --from 0 --to @N",
    "make --dims 12 --empty N --kind 1 raw -o new",
    "make --dims 12 --kind N raw -o new",
    "set m2.radar --at 2 --word N -o new",
    "change m2.radar --kind 3 --width N --step 1 -o new",
    "change m2.radar --kind 3 --width 1 --step N -o new",
    "best m2.radar --max-length N -o new",
];

#[test]
fn the_largest_number() {
    let folder = folder();
    folder.run("cell m2.radar --at @4294967295").refused(8);
    folder.run("position m2.radar --rank 0xffffffff").refused(8);
    folder
        .run("make --dims 4294967295 --kind 1 raw -o new")
        .refused(4);
    folder
        .run("best m2.radar --max-length 0xffffffff -o best")
        .printed("");
    folder
        .run("set m2.radar --at 2 --word 4294967295 -o largest")
        .printed("");
    folder.run("cell largest --at 2").printed("4294967295\n");
}

#[test]
fn a_larger_number_is_said_to_be_too_large() {
    let folder = folder();
    for number in [
        "4294967296",
        "0x100000000",
        "18446744073709551616",
        "99999999999999999999999999",
    ] {
        for call in WITH_A_NUMBER {
            let command = call.split(' ').next().expect("a command");
            let notes = folder.run(&call.replace('N', number)).usage(command);
            assert!(
                notes.contains(number) && notes.contains("too large"),
                "{notes}"
            );
        }
    }
    let notes = folder
        .run("make --dims 4294967296 --kind 1 raw -o new")
        .usage("make");
    assert!(
        notes.contains("4294967296") && notes.contains("too large"),
        "{notes}"
    );
    assert!(!folder.path("new").exists());
}

#[test]
fn what_is_no_number() {
    let folder = folder();
    for word in [
        "1_0", "0x", "0xg", "+2", "-2", "2.0", "1e1", "two", "", " 2", "2 ", "0b1", "0x1_0",
    ] {
        let at = format!("--at={word}");
        folder.run_all(["cell", "m2.radar", &at]).usage("cell");
        let at = format!("--at=@{word}");
        folder.run_all(["cell", "m2.radar", &at]).usage("cell");
        let rank = format!("--rank={word}");
        folder
            .run_all(["position", "m2.radar", &rank])
            .usage("position");
        let word = format!("--word={word}");
        folder
            .run_all(["set", "m2.radar", "--at=2", &word, "-o", "new"])
            .usage("set");
    }
    for kind in ["run", "Runs", "", "base offset", "1,", "one"] {
        let kind = format!("--kind={kind}");
        folder
            .run_all(["change", "m2.radar", &kind, "-o", "new"])
            .usage("change");
    }
    for dims in ["", "x", "12x", "x12", "3xx4", "3,4", "3*4", "0xx4"] {
        let dims = format!("--dims={dims}");
        folder
            .run_all(["make", "--kind=1", &dims, "raw", "-o", "new"])
            .usage("make");
    }
    for place in ["@", "@1,2", "1,", ",1", "1,,2", "@@1", "1 2", "1;2"] {
        let at = format!("--at={place}");
        folder.run_all(["rank", "m2.radar", &at]).usage("rank");
    }
    assert!(!folder.path("new").exists());
}

#[test]
fn options_before_and_after_the_operands() {
    let folder = folder();
    let calls = [
        "change --kind 3 --width 1 --step 2 -o new m1.radar",
        "change m1.radar --kind=3 --width=1 --step=2 -o new",
        "change --kind=base-offset m1.radar --width 1 -onew --step 2",
        "change m1.radar --kind 3 --width 1 --step 2 --output new",
        "change m1.radar --kind 3 --width 1 --step 2 --output=new",
        "change -onew --step=0x2 --width=0x1 --kind base-offset -- m1.radar",
    ];
    for call in calls {
        folder.run(call).printed("");
        assert_eq!(folder.read("new"), folder.read("m3.radar"), "{call}");
        folder.remove("new");
    }
}

#[test]
fn two_dashes_end_the_options() {
    let folder = folder();
    let file = folder.read("m2.radar");
    folder.write("--json", &file);
    folder.write("-o", &file);
    folder
        .run("list -- --json")
        .printed("2 12 4\n0 2 7\n1 3 9\n2 5 5\n3 10 300\n");
    folder
        .run("check --quiet -- --json -o m1.radar")
        .printed("");
    folder.run("shorter -- -o --json").printed("-o\n");
    folder
        .run("list ./-o")
        .printed("2 12 4\n0 2 7\n1 3 9\n2 5 5\n3 10 300\n");
}
