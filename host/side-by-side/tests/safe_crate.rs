//! The types of `radar-archive` (pictures, opened files, iterators, destinations that the crate sizes) against the reader.

use radar_archive::{Archive, Dimensions, Kind, Picture, Position, Rank, Refusal, Setting};
use side_by_side::random::Random;
use side_by_side::settings;
use side_by_side::textures::{any_word, Sketch, NAMES};

/// A sketch as the crate's picture.
fn picture(sketch: &Sketch) -> Picture {
    Picture {
        dimensions: Dimensions::of_numbers(sketch.dimensions, sketch.extents),
        empty: sketch.empty,
        words: sketch.words.clone(),
    }
}

/// The file that the reader makes, or the number.
fn wanted(sketch: &Sketch, setting: settings::Setting) -> Result<Vec<u8>, u32> {
    let Sketch {
        dimensions,
        extents,
        empty,
        words,
        ..
    } = sketch;
    let made = reader::make(
        settings::reader(setting),
        *dimensions,
        extents,
        *empty,
        words,
        usize::MAX,
    );
    made.map_err(|refusal| refusal.number())
}

/// An answer with its number.
fn told<T>(answer: Result<T, Refusal>) -> Result<T, u32> {
    answer.map_err(Refusal::number)
}

/// The calls that size their destination: they never refuse with 10, and give what the reader gives.
fn sized(sketch: &Sketch, archive: &Archive<impl AsRef<[u8]>>, random: &mut Random) {
    for _ in 0..4 {
        let setting = settings::any(random);
        assert_eq!(
            told(archive.change(settings::engine(setting))),
            wanted(sketch, setting)
        );
        let own = archive.setting();
        let mut written = sketch.clone();
        let at = random.below(written.words.len());
        written.words[at] = if random.once_in(3) {
            sketch.empty
        } else {
            any_word(sketch.empty, random)
        };
        let answer = told(archive.write(Position(at as u32), written.words[at]));
        assert_eq!(answer, wanted(&written, own.into()));
    }
    assert_eq!(
        archive.write(Position(sketch.cells()), 1),
        Err(Refusal::Beyond)
    );
    assert_eq!(archive.expand(), sketch.words);
    assert_eq!(archive.picture(), picture(sketch));
    boxes(sketch, archive);
}

/// The words of the whole picture as a box, and corners that lie outside or have another number of coordinates.
fn boxes(sketch: &Sketch, archive: &Archive<impl AsRef<[u8]>>) {
    let count = sketch.dimensions as usize;
    let last = sketch.extents.map(|extent| extent - 1);
    let (first, last, far) = (&[0; 4][..count], &last[..count], &[u32::MAX; 4][..count]);
    let words = archive.box_words(first, last);
    assert_eq!(words.as_ref(), Ok(&sketch.words));
    for (low, high) in [(first, far), (far, far), (far, first)] {
        assert_eq!(archive.box_words(low, high), Err(Refusal::Beyond));
    }
    for other in (0..=5).filter(|&other| other != count) {
        let corner = &[0; 5][..other];
        assert_eq!(archive.box_words(corner, last), Err(Refusal::Beyond));
        assert_eq!(archive.box_words(first, corner), Err(Refusal::Beyond));
        let dimensions = archive.dimensions();
        assert_eq!(dimensions.position(corner), Err(Refusal::Beyond));
    }
}

/// Coordinates and positions, both ways, at the ends of the picture and at some cells by chance.
fn coordinates(sketch: &Sketch, dimensions: Dimensions, random: &mut Random) {
    let cells = sketch.cells();
    let count = sketch.dimensions as usize;
    assert_eq!(dimensions.cells(), Ok(cells));
    assert_eq!(dimensions.extents(), &sketch.extents[..count]);
    for position in [0, cells - 1, random.below(cells as usize) as u32] {
        let at = dimensions.coordinates(Position(position)).unwrap();
        assert_eq!(at.len(), count);
        let (place, extents) = (reader::Position(position), &sketch.extents);
        let four = reader::position_coordinates(sketch.dimensions, extents, place, 4).unwrap();
        assert_eq!(*at, four[..count]);
        assert_eq!(dimensions.position(&at), Ok(Position(position)));
    }
    let past = dimensions.coordinates(Position(cells));
    assert_eq!(past, Err(Refusal::Beyond));
}

/// The stored cells from both ends, and from the middle.
fn iterated(sketch: &Sketch, archive: &Archive<impl AsRef<[u8]>>) {
    let cells: Vec<(Position, u32)> = (0..)
        .zip(&sketch.words)
        .filter(|(_, &word)| word != sketch.empty)
        .map(|(at, &word)| (Position(at), word))
        .collect();
    let stored = archive.stored_cells();
    assert_eq!(stored.len(), cells.len());
    assert_eq!(archive.stored_count() as usize, cells.len());
    let given: Vec<_> = stored.clone().collect();
    let wanted: Vec<_> = (0..)
        .zip(&cells)
        .map(|(rank, &(at, word))| (Rank(rank), at, word))
        .collect();
    assert_eq!(given, wanted);
    let back: Vec<_> = stored.clone().rev().collect();
    assert!(back.iter().eq(wanted.iter().rev()));
    let middle = cells.len() / 2;
    assert_eq!(stored.clone().nth(middle), wanted.get(middle).copied());
    assert_eq!(stored.clone().nth(cells.len()), None);
    let words: Vec<u8> = cells.iter().flat_map(|cell| cell.1.to_le_bytes()).collect();
    let part = archive.ranks(Rank(0), Rank(cells.len() as u32)).unwrap();
    assert_eq!(part, words);
    assert!(std::ptr::eq(
        part,
        &archive.bytes()[archive.bytes().len() - words.len()..]
    ));
}

#[test]
fn every_setting_through_the_safe_types() {
    let mut random = Random::new(7);
    for (index, setting) in settings::all().into_iter().enumerate() {
        for turn in 0..4 {
            let sketch = Sketch::of(NAMES[(index + turn) % 9], &mut random);
            let made = told(picture(&sketch).make(settings::engine(setting)));
            assert_eq!(made, wanted(&sketch, setting));
            let Ok(file) = made else { continue };
            let archive = Archive::open(&file).unwrap();
            assert_eq!(archive.setting(), settings::engine(setting));
            assert_eq!(archive.cells(), sketch.cells());
            coordinates(&sketch, archive.dimensions(), &mut random);
            sized(&sketch, &archive, &mut random);
            iterated(&sketch, &archive);
            let owned = archive.owned();
            drop(file);
            sized(&sketch, &owned, &mut random);
            iterated(&sketch, &owned.borrowed());
        }
    }
}

#[test]
fn the_longest_files_are_as_long_as_said() {
    // Every other cell stored: as many runs as stored cells, so kinds 1 and 5 reach the length; distant cells reach that of kinds 4 and 6.
    for stored in [0, 1, 2, 3, 9, 64, 65, 200] {
        for setting in settings::all() {
            let of_jumps = matches!(setting[0], 4 | 6);
            let gap = if of_jumps {
                256usize.pow(setting[1])
            } else {
                2
            };
            if of_jumps && setting[1] == 2 && stored > 9 {
                continue;
            }
            let words: Vec<u32> = (0..stored.max(1) * gap)
                .map(|at| u32::from(at % gap == 0 && stored > 0))
                .collect();
            let picture = Picture {
                dimensions: Dimensions::of(&[words.len() as u32]).unwrap(),
                empty: 0,
                words,
            };
            let numbers = settings::engine(setting);
            match picture.make(numbers) {
                Ok(file) => assert_eq!(
                    file.len(),
                    numbers.longest_file(stored),
                    "{setting:?} {stored}"
                ),
                Err(refusal) => assert_eq!(refusal, Refusal::Unfit),
            }
        }
    }
}

#[test]
fn wrong_settings_and_pictures_have_their_numbers() {
    let mut random = Random::new(8);
    for turn in 0..2_000 {
        let mut sketch = Sketch::of(NAMES[turn % 7], &mut random);
        if random.once_in(3) {
            sketch.words.push(1);
        }
        if random.once_in(3) {
            sketch.extents[random.below(4)] = random.one_of(&[0, 2, u32::MAX]);
        }
        let setting = settings::wrong(&mut random);
        let setting_or_2 = Setting::try_from(setting);
        let made = told(setting_or_2.and_then(|setting| picture(&sketch).make(setting)));
        assert_eq!(made, wanted(&sketch, setting));
    }
}

#[test]
fn the_shorter_is_one_of_the_two() {
    let mut random = Random::new(9);
    for turn in 0..500 {
        let sketch = Sketch::of(NAMES[turn % 9], &mut random);
        let settings = [settings::any(&mut random), settings::any(&mut random)];
        let [Ok(one), Ok(two)] = settings.map(|setting| wanted(&sketch, setting)) else {
            continue;
        };
        let (first, second) = (Archive::open(&one).unwrap(), Archive::open(&two).unwrap());
        let expected = if two.len() < one.len() { &two } else { &one };
        let shorter = first.shorter(&second).unwrap();
        assert!(std::ptr::eq(shorter.bytes(), expected.as_slice()));
        let shorter = first.shorter(&first).unwrap();
        assert!(std::ptr::eq(shorter.bytes(), one.as_slice()));
        let owned = second.owned();
        let shorter = first.shorter(&owned).unwrap();
        assert_eq!(shorter.bytes(), expected.as_slice());
    }
}

#[test]
fn refusals_have_the_papers_numbers_and_words() {
    let words = [
        "short", "kind", "setting", "extent", "counts", "body", "picture", "beyond", "unfit",
        "small", "other",
    ];
    for ((number, word), refusal) in (1..).zip(words).zip(Refusal::ALL) {
        assert_eq!((refusal.number(), refusal.word()), (number, word));
        assert_eq!(Refusal::of_number(number), Some(refusal));
        assert!(refusal
            .to_string()
            .starts_with(&format!("{number} {word}: ")));
    }
    for number in [0, 12, 255, u32::MAX] {
        assert_eq!(Refusal::of_number(number), None);
    }
}

#[test]
fn kinds_have_their_numbers_and_names() {
    let names = [
        "runs",
        "positions",
        "base-offset",
        "jumps",
        "paged-runs",
        "pointed-jumps",
    ];
    for ((number, name), kind) in (1..).zip(names).zip(Kind::ALL) {
        assert_eq!((kind.number(), kind.name()), (number, name));
        assert_eq!(Kind::of_number(number), Some(kind));
        assert_eq!(kind.to_string().parse(), Ok(kind));
        assert_eq!(format!("[{kind:<12}]"), format!("[{name:<12}]"));
    }
    for number in [0, 7, 257, u32::MAX] {
        assert_eq!(Kind::of_number(number), None);
    }
    for name in ["", "run", "Runs", "runs ", "1", "base offset"] {
        assert!(name.parse::<Kind>().is_err(), "{name}");
    }
}

/// The settings that the crate allows are those of the papers.
#[test]
fn allowed_settings() {
    let mut allowed = Vec::new();
    for kind in Kind::ALL {
        for (width, step) in (0..4).flat_map(|width| (0..300).map(move |step| (width, step))) {
            let setting = Setting::of(kind, width, step);
            allowed.extend(setting.is_allowed().then(|| <[u32; 3]>::from(setting)));
        }
    }
    let mut all = settings::all();
    all.sort();
    assert_eq!(allowed, all);
}

/// An archive hands its bytes back, and one over shared bytes answers as one over its own.
#[test]
fn archives_over_other_bytes() {
    let sketch = Sketch::of(NAMES[0], &mut Random::new(10));
    let file = wanted(&sketch, [2, 0, 0]).unwrap();
    let shared: std::sync::Arc<[u8]> = file.clone().into();
    let archive = Archive::open(shared).unwrap();
    assert_eq!(archive.expand(), sketch.words);
    assert_eq!(archive.as_ref(), file);
    assert_eq!(&*archive.into_bytes(), file);
    assert_eq!(Archive::open(file.clone()).unwrap().into_bytes(), file);
    let bytes = Archive::open(file.as_slice()).unwrap().into_bytes();
    assert!(std::ptr::eq(bytes, file.as_slice()));
    assert!(Archive::open([0; 60]).is_err());
}
