//! The cases of one picture: every call on its files, on damaged ones and on wrong arguments.

use radar_archive::Archive;
use reader::Parsed;

use crate::arguments::{any_position, any_rank, corner, wrong_extents};
use crate::forge;
use crate::settings::{self, Setting};
use crate::sides::Sides;
use crate::textures::{any_extents, Sketch, NAMES};

/// The cases of picture number `index`; `all` are the allowed settings, met in turn.
pub fn picture(sides: &mut Sides, index: usize, all: &[Setting]) {
    let large = "gaps of 65,534 to 65,537";
    let name = NAMES[index % NAMES.len()];
    // A picture of that texture takes as long as hundreds of others.
    let name = if name == large && index % 7 != 0 {
        "gaps of 254 to 257"
    } else {
        name
    };
    sides.tally.texture(name);
    let random = &mut sides.random;
    let sketch = Sketch::of(name, random);
    let mut chosen: Vec<Setting> = (1..=6)
        .map(|kind| settings::any_of_kind(kind, random))
        .collect();
    chosen.push(all[index % all.len()]);
    for setting in chosen {
        let made = sides.make(
            setting,
            sketch.dimensions,
            &sketch.extents,
            sketch.empty,
            &sketch.words,
        );
        if let Some(file) = made {
            file_cases(sides, &sketch, &file);
        }
    }
    wrong_make(sides, &sketch);
    coordinates(sides, &sketch);
}

/// Make with one argument wrong, or several.
fn wrong_make(sides: &mut Sides, sketch: &Sketch) {
    for _ in 0..4 {
        let random = &mut sides.random;
        let mut setting = settings::any(random);
        let (mut dimensions, mut extents) = (sketch.dimensions, sketch.extents.to_vec());
        let mut words = sketch.words.clone();
        if random.once_in(2) {
            setting = settings::wrong(random);
        }
        if random.once_in(3) {
            (dimensions, extents) = wrong_extents(sketch, random);
        }
        match random.below(5) {
            0 => words.push(sketch.empty),
            1 => {
                words.pop();
            }
            2 => words.clear(),
            _ => {}
        }
        sides.make(setting, dimensions, &extents, sketch.empty, &words);
    }
}

/// Coordinates both ways, with right and wrong arguments.
fn coordinates(sides: &mut Sides, sketch: &Sketch) {
    for _ in 0..4 {
        let (dimensions, extents) = match sides.random.below(3) {
            0 => wrong_extents(sketch, &mut sides.random),
            1 => {
                let cells = sides.random.one_of(&[1, 2, 60_060, 16_777_216, 16_777_215]);
                let (dimensions, extents) = any_extents(cells, &mut sides.random);
                (dimensions, extents.to_vec())
            }
            _ => (sketch.dimensions, sketch.extents.to_vec()),
        };
        let at = corner(&extents, &mut sides.random);
        sides.coordinates_position(dimensions, &extents, &at);
        let cells = extents
            .iter()
            .fold(1u32, |cells, &extent| cells.wrapping_mul(extent))
            .max(1);
        let random = &mut sides.random;
        let (inside, word) = (random.below(cells as usize) as u32, random.word());
        let position = random.one_of(&[inside, inside, 0, cells - 1, cells, word, u32::MAX]);
        sides.position_coordinates(dimensions, &extents, position);
    }
}

/// All calls on an accepted file, and on files damaged from it.
fn file_cases(sides: &mut Sides, sketch: &Sketch, file: &[u8]) {
    let checked = sides.check(file);
    let Ok(says) = &checked else {
        panic!("a made file is refused: {file:?}");
    };
    let large = sketch.cells() > 60_000;
    for _ in 0..12 {
        let random = &mut sides.random;
        let (position, rank) = (any_position(says, random), any_rank(says, random));
        sides.opened(file, says, position, rank);
        if sides.random.once_in(3) {
            sides.cell(file, &checked, position);
            sides.rank(file, &checked, position);
            sides.position(file, &checked, rank);
        }
    }
    sides.info(file, &checked);
    sides.expand(file, &checked);
    for _ in 0..3 {
        read_parts(sides, sketch, file, &checked, says);
    }
    counts(sides, file, says);
    for _ in 0..if large { 2 } else { 4 } {
        write_and_change(sides, sketch, file, says);
    }
    two_files(sides, sketch, file, says);
    for _ in 0..if large { 3 } else { 10 } {
        damaged(sides, sketch, file, says);
    }
}

/// A box and a range of ranks.
fn read_parts(
    sides: &mut Sides,
    sketch: &Sketch,
    file: &[u8],
    checked: &Result<Parsed, u32>,
    says: &Parsed,
) {
    let random = &mut sides.random;
    let mut low = corner(&sketch.extents, random);
    let mut high = corner(&sketch.extents, random);
    if !random.once_in(5) {
        for (low, high) in low.iter_mut().zip(high.iter_mut()) {
            if low > high {
                std::mem::swap(low, high);
            }
        }
    }
    sides.box_words(file, checked, &low, &high);
    let random = &mut sides.random;
    let (mut from, mut to) = (any_rank(says, random), any_rank(says, random));
    if from > to && !random.once_in(4) {
        std::mem::swap(&mut from, &mut to);
    }
    sides.ranks(file, checked, from, to);
}

/// The stored cells between some pairs of positions, of which some lie outside or in the wrong order.
fn counts(sides: &mut Sides, file: &[u8], says: &Parsed) {
    let archive = match Archive::open(file) {
        Ok(archive) => archive,
        Err(fault) => panic!("a made file is refused: {fault}"),
    };
    for _ in 0..6 {
        let random = &mut sides.random;
        let (mut from, mut to) = (any_position(says, random), any_position(says, random));
        if from > to && !random.once_in(4) {
            std::mem::swap(&mut from, &mut to);
        }
        sides.count(&archive, says, from, to);
    }
}

/// A write and a change, each sometimes wrong.
fn write_and_change(sides: &mut Sides, sketch: &Sketch, file: &[u8], says: &Parsed) {
    let random = &mut sides.random;
    let position = any_position(says, random);
    let there = sketch
        .words
        .get(position as usize)
        .copied()
        .unwrap_or(sketch.empty);
    let other = crate::textures::any_word(sketch.empty, random);
    let word = random.one_of(&[there, sketch.empty, other, other]);
    sides.write(file, position, word);
    let wrong = sides.random.once_in(4);
    let setting = if wrong {
        settings::wrong(&mut sides.random)
    } else {
        settings::any(&mut sides.random)
    };
    sides.change(file, setting);
}

/// The shorter of two files: of one picture, or of pictures that differ in one thing.
fn two_files(sides: &mut Sides, sketch: &Sketch, file: &[u8], says: &Parsed) {
    let mut other = sketch.clone();
    let random = &mut sides.random;
    let setting = settings::any(random);
    match random.below(6) {
        0 => {
            let at = random.below(other.words.len());
            other.words[at] = crate::textures::any_word(sketch.empty, random);
        }
        1 => (other.dimensions, other.extents) = any_extents(sketch.cells(), random),
        2 => other.empty = crate::textures::any_empty(random),
        3 => {
            let at = random.below(other.words.len());
            other.words.swap(0, at);
        }
        _ => {}
    }
    let wanted = settings::reader(setting);
    let second = reader::make(
        wanted,
        other.dimensions,
        &other.extents,
        other.empty,
        &other.words,
        usize::MAX,
    );
    let second = second.unwrap_or_else(|_| file.to_vec());
    sides.shorter(file, &second);
    sides.shorter(&second, file);
    let (_, bad) = forge::any(file, says, &mut sides.random);
    let (_, worse) = forge::any(file, says, &mut sides.random);
    sides.shorter(file, &bad);
    sides.shorter(&bad, &worse);
}

/// A damaged or forged file: the check, two other calls, and the lookups of an opening that nobody checked.
fn damaged(sides: &mut Sides, sketch: &Sketch, file: &[u8], says: &Parsed) {
    let (place, mut bad) = forge::any(file, says, &mut sides.random);
    sides.tally.damaged(&place);
    if sides.random.once_in(10) && !bad.is_empty() {
        let at = sides.random.below(bad.len());
        bad[at] = sides.random.word() as u8;
    }
    let checked = sides.check(&bad);
    let random = &mut sides.random;
    let (position, rank) = (any_position(says, random), any_rank(says, random));
    if checked.is_err() {
        sides.opened_over_any(&bad, position, rank);
    }
    for _ in 0..2 {
        any_call(sides, sketch, &bad, &checked, position, rank);
    }
}

/// One of the calls on a file, with arguments that may be wrong.
fn any_call(
    sides: &mut Sides,
    sketch: &Sketch,
    file: &[u8],
    checked: &Result<Parsed, u32>,
    position: u32,
    rank: u32,
) {
    match sides.random.below(9) {
        0 => sides.expand(file, checked),
        8 => sides.info(file, checked),
        1 => sides.cell(file, checked, position),
        2 => sides.rank(file, checked, position),
        3 => sides.position(file, checked, rank),
        4 => {
            sides.write(file, position, rank);
        }
        5 => {
            let setting = settings::wrong(&mut sides.random);
            sides.change(file, setting);
        }
        6 => {
            let (random, extents) = (&mut sides.random, &sketch.extents);
            let (low, high) = (corner(extents, random), corner(extents, random));
            sides.box_words(file, checked, &low, &high);
        }
        _ => sides.ranks(file, checked, 0, rank),
    }
}
