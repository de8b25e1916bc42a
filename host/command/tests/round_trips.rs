//! What goes in comes out: make and expand, change through the kinds, set and cell, best.

mod support;

use support::files::{options, pictures, raw, Picture, ALL_KINDS};
use support::Folder;

#[test]
fn make_then_expand_gives_the_words() {
    let folder = Folder::new();
    for picture in pictures() {
        folder.write("raw", &picture.raw());
        let (dims, empty) = (picture.dims(), picture.empty);
        for setting in ALL_KINDS {
            let options = options(setting);
            folder
                .run(&format!(
                    "make -f --dims {dims} --empty {empty} {options} raw -o p"
                ))
                .printed("");
            assert_eq!(folder.read("p"), picture.file(setting), "{dims} {options}");
            folder.run("check -q p").printed("");
            folder.run("expand p -f -o out").printed("");
            assert_eq!(folder.read("out"), picture.raw(), "{dims} {options}");
        }
    }
}

#[test]
fn change_through_all_kinds_is_make() {
    let folder = Folder::new();
    for picture in pictures() {
        folder.write("p", &picture.file([2, 0, 0]));
        for round in 0..2 {
            for number in 0..ALL_KINDS.len() {
                let setting = ALL_KINDS[(number * 5 + round) % ALL_KINDS.len()];
                folder
                    .run(&format!("change p {} -f -o p", options(setting)))
                    .printed("");
                assert_eq!(folder.read("p"), picture.file(setting), "{setting:?}");
            }
        }
    }
}

#[test]
fn set_then_cell_gives_the_word() {
    let folder = Folder::new();
    for setting in ALL_KINDS
        .into_iter()
        .filter(|setting| *setting != [3, 2, 255])
    {
        let mut picture = Picture::scattered(&[6, 7], 3, 3);
        folder.write("p", &picture.file(setting));
        let mut state = 12345u32;
        for _ in 0..12 {
            state = state.wrapping_mul(1_103_515_245).wrapping_add(12345);
            let position = (state >> 16) % 42;
            let word = [3, 0, 4_294_967_295, position][(state >> 8) as usize % 4];
            picture.words[position as usize] = word;
            let at = format!("{},{}", position / 7, position % 7);
            let name = if word == 3 {
                "empty".to_string()
            } else {
                word.to_string()
            };
            folder
                .run(&format!("set p --at {at} --word {name} -f -o p"))
                .printed("");
            folder
                .run(&format!("cell p --at {at}"))
                .printed(&format!("{word}\n"));
            assert_eq!(folder.read("p"), picture.file(setting), "{setting:?} {at}");
        }
    }
}

#[test]
fn the_rank_of_the_position_of_a_rank() {
    let folder = Folder::new();
    let picture = Picture::scattered(&[5, 6, 7], 0, 8);
    for setting in ALL_KINDS {
        folder.write("p", &picture.file(setting));
        let list = folder.run("list p").quiet().text();
        assert!(list.lines().count() > 10, "{list}");
        for line in list.lines().skip(1).step_by(5) {
            let words: Vec<_> = line.split(' ').collect();
            let found = folder
                .run(&format!("position p --rank {}", words[0]))
                .text();
            let (position, coordinates) = found.trim_end().split_once(' ').expect("two words");
            assert_eq!(position, words[1], "{list}");
            folder
                .run(&format!("rank p --at {coordinates}"))
                .printed(&format!("{}\n", words[0]));
            folder
                .run(&format!("cell p --at @{position}"))
                .printed(&format!("{}\n", words[2]));
        }
    }
}

#[test]
fn the_box_of_all_is_expand() {
    let folder = Folder::new();
    for picture in pictures() {
        folder.write("p", &picture.file([1, 0, 0]));
        let last = picture.words.len() - 1;
        folder
            .run(&format!("box p --low @0 --high @{last} -f -o out"))
            .printed("");
        assert_eq!(folder.read("out"), picture.raw());
        let text = folder.run(&format!("box p --low @0 --high @{last}")).text();
        let words = text
            .split_whitespace()
            .map(|word| word.parse().expect("a word"));
        assert_eq!(raw(&words.collect::<Vec<_>>()), picture.raw());
    }
}

/// Every setting that the format allows.
fn all_settings() -> impl Iterator<Item = [u32; 3]> {
    let offsets = (1..=2).flat_map(|width| (1..=255).map(move |step| [3, width, step]));
    let paged = (2..=64).map(|step| [5, 0, step]);
    let plain = [[1, 0, 0], [2, 0, 0]].into_iter();
    plain
        .chain(offsets)
        .chain([[4, 1, 0], [4, 2, 0]])
        .chain(paged)
}

#[test]
fn best_is_the_first_shortest_of_all_settings() {
    let folder = Folder::new();
    let rows = (0..400)
        .map(|position| u32::from(position % 100 < 40))
        .collect();
    let mut pictures = pictures();
    pictures.push(Picture::of(&[4, 100], 0, rows));
    for picture in pictures {
        folder.write("p", &picture.file([1, 0, 0]));
        folder.run("best p -f -o best").printed("");
        let best = folder.read("best");
        let mut shortest: Option<Vec<u8>> = None;
        for setting in all_settings() {
            let Ok(file) = picture.file_if_fit(setting) else {
                continue;
            };
            if shortest
                .as_ref()
                .is_none_or(|shortest| file.len() < shortest.len())
            {
                shortest = Some(file);
            }
        }
        assert_eq!(
            best[..4],
            shortest.as_ref().expect("a file")[..4],
            "{}",
            picture.dims()
        );
        assert!(Some(best) == shortest, "{}", picture.dims());
    }
}

#[test]
fn best_is_not_longer_than_any_change() {
    let folder = Folder::new();
    let picture = Picture::scattered(&[40, 50], 0, 40);
    folder.write("p", &picture.file([5, 0, 2]));
    folder.run("best p -o best").printed("");
    let best = folder.read("best").len();
    for setting in all_settings().step_by(23) {
        let run = folder.run(&format!("change p {} -f -o q", options(setting)));
        match run.status.code() {
            Some(0) => assert!(best <= folder.read("q").len(), "{setting:?}"),
            _ => assert!(!run.refused(9).is_empty()),
        }
    }
}
