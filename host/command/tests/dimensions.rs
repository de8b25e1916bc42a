//! Pictures of 2, 3 and 4 dimensions: places, boxes, lists.

mod support;

use support::files::{raw, Picture, SETTINGS};
use support::Folder;

/// 3 by 4, stored at (0, 1), (1, 2) and (2, 2).
fn plane() -> Picture {
    let mut words = vec![0; 12];
    words[1] = 11;
    words[6] = 26;
    words[10] = 300;
    Picture::of(&[3, 4], 0, words)
}

/// Every cell holds its coordinates as decimal digits; (0, 0, ..) is empty.
fn digits(extents: &[u32]) -> Picture {
    let cells: u32 = extents.iter().product();
    let word = |position: u32| {
        let mut rest = position;
        let mut word = 0;
        let mut place = 1;
        for extent in extents.iter().rev() {
            word += place * (rest % extent);
            rest /= extent;
            place *= 10;
        }
        word
    };
    Picture::of(extents, 0, (0..cells).map(word).collect())
}

#[test]
fn a_plane_in_every_kind() {
    let folder = Folder::new();
    for setting in SETTINGS {
        folder.write("p.radar", &plane().file(setting));
        folder.run("check p.radar").printed("p.radar: accepted\n");
        let kind = setting[0];
        let lines = format!("{kind} 12 3\n0 1 11\n1 6 26\n2 10 300\n");
        folder.run("list p.radar").printed(&lines).quiet();
        folder.run("cell p.radar --at 1,2").printed("26\n").quiet();
        folder.run("cell p.radar --at @6").printed("26\n").quiet();
        folder.run("cell p.radar --at 1,1").printed("0\n").quiet();
        folder.run("rank p.radar --at 2,2").printed("2\n").quiet();
        folder
            .run("rank p.radar --at 2,1")
            .printed("empty, 2 stored before\n")
            .quiet();
        folder
            .run("position p.radar --rank 2")
            .printed("10 2,2\n")
            .quiet();
        folder
            .run("count p.radar --from 0,2 --to 2,2")
            .printed("2\n")
            .quiet();
        folder
            .run("box p.radar --low 0,1 --high 2,2")
            .printed("11 0\n0 26\n0 300\n")
            .quiet();
        folder
            .run("box p.radar --low @1 --high @10")
            .printed("11 0\n0 26\n0 300\n")
            .quiet();
        folder
            .run("box p.radar --low 1,0 --high 1,3")
            .printed("0 0 26 0\n")
            .quiet();
        folder
            .run("box p.radar --low 0,2 --high 2,2")
            .printed("0\n26\n300\n")
            .quiet();
    }
}

#[test]
fn a_box_of_three_dimensions_has_planes() {
    let folder = Folder::new();
    folder.write("p.radar", &digits(&[2, 3, 4]).file([1, 0, 0]));
    let whole =
        "0 1 2 3\n10 11 12 13\n20 21 22 23\n\n100 101 102 103\n110 111 112 113\n120 121 122 123\n";
    folder
        .run("box p.radar --low 0,0,0 --high 1,2,3")
        .printed(whole)
        .quiet();
    folder
        .run("box p.radar --low 0,1,2 --high 1,1,3")
        .printed("12 13\n\n112 113\n")
        .quiet();
    folder
        .run("box p.radar --low 1,0,3 --high 1,2,3")
        .printed("103\n113\n123\n")
        .quiet();
}

#[test]
fn a_box_of_four_dimensions_has_planes() {
    let folder = Folder::new();
    folder.write("p.radar", &digits(&[2, 2, 2, 3]).file([2, 0, 0]));
    let whole = "\
0 1 2
10 11 12

100 101 102
110 111 112

1000 1001 1002
1010 1011 1012

1100 1101 1102
1110 1111 1112
";
    folder
        .run("box p.radar --low 0,0,0,0 --high 1,1,1,2")
        .printed(whole)
        .quiet();
    let column = "100\n\n1100\n";
    folder
        .run("box p.radar --low 0,1,0,0 --high 1,1,0,0")
        .printed(column)
        .quiet();
    folder
        .run("box p.radar --low 1,1,0,1 --high 1,1,1,2 --hex")
        .printed("0x0000044d 0x0000044e\n0x00000457 0x00000458\n");
    folder
        .run("box p.radar --low 1,1,0,1 --high 1,1,1,2 -o raw")
        .printed("");
    assert_eq!(folder.read("raw"), raw(&[1101, 1102, 1111, 1112]));
}

#[test]
fn every_place_by_coordinates_and_by_position() {
    let folder = Folder::new();
    let picture = digits(&[2, 2, 2, 2]);
    folder.write("p.radar", &picture.file([5, 0, 2]));
    for position in 0..16 {
        let coordinates = [8, 4, 2, 1]
            .map(|bit| (position / bit % 2).to_string())
            .join(",");
        let word = format!("{}\n", picture.words[position]);
        folder
            .run(&format!("cell p.radar --at {coordinates}"))
            .printed(&word);
        folder
            .run(&format!("cell p.radar --at @{position}"))
            .printed(&word);
        if position > 0 {
            let rank = position - 1;
            folder
                .run(&format!("rank p.radar --at {coordinates}"))
                .printed(&format!("{rank}\n"));
            let line = format!("{position} {coordinates}\n");
            folder
                .run(&format!("position p.radar --rank {rank}"))
                .printed(&line);
        }
    }
}

#[test]
fn make_of_four_dimensions_in_row_order() {
    let folder = Folder::new();
    let picture = digits(&[2, 3, 2, 5]);
    folder.write("raw", &picture.raw());
    for [kind, width, step] in SETTINGS {
        let setting = format!("--kind {kind} --width {width} --step {step}");
        folder
            .run(&format!("make --dims 2x3x2x5 {setting} raw -o p --force"))
            .printed("");
        assert_eq!(folder.read("p"), picture.file([kind, width, step]));
        folder.run("cell p --at 1,2,1,4").printed("1214\n");
    }
}

#[test]
fn the_number_of_dimensions_belongs_to_the_picture() {
    let folder = Folder::with_samples();
    folder.write("raw", &Picture::sample().raw());
    folder
        .run("make --dims 12x1 --kind 2 raw -o flat")
        .printed("");
    assert_eq!(
        folder.read("flat"),
        Picture::of(&[12, 1], 0, Picture::sample().words).file([2, 0, 0])
    );
    folder.run("position flat --rank 3").printed("10 10,0\n");
    folder.run("shorter flat m2.radar").refused(11);
}

#[test]
fn an_empty_word_that_is_not_zero() {
    let folder = Folder::new();
    folder.write("raw", &raw(&[9, 0, 9, 4, 9, 9]));
    folder
        .run("make --dims 2x3 --empty 9 --kind jumps --width 2 raw -o p")
        .printed("");
    assert_eq!(
        folder.read("p"),
        Picture::of(&[2, 3], 9, vec![9, 0, 9, 4, 9, 9]).file([4, 2, 0])
    );
    folder.run("list p").printed("4 6 2\n0 1 0\n1 3 4\n");
    folder.run("cell p --at 0,0").printed("9\n");
    folder
        .run("rank p --at 0,0")
        .printed("empty, 0 stored before\n");
    folder
        .run("rank p --at 1,2")
        .printed("empty, 2 stored before\n");
    folder.run("count p --from 0,0 --to 0,2").printed("1\n");
    folder.run("set p --at 0,1 --word empty -o q").printed("");
    folder.run("list q").printed("4 6 1\n0 3 4\n");
    folder.run("set p --at 0,0 --word 0 -o r").printed("");
    folder.run("list r").printed("4 6 3\n0 0 0\n1 1 0\n2 3 4\n");
}
