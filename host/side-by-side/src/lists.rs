//! Lists of writes and changes, held step by step to a table.

use radar_archive::{calls, Archive, Position, Rank, Ranked};

use crate::random::Random;
use crate::settings::{self, Setting};
use crate::sides::Sides;
use crate::table::{Request, Table};
use crate::textures::{any_empty, any_extents, any_word};

/// The cells of a list's picture: mostly few, some with gaps past one byte or with many of them, some past two.
fn any_cells(random: &mut Random) -> u32 {
    let cells = match random.below(40) {
        0 => random.within(65_540, 66_000),
        1..=9 => random.within(250, 800),
        10..=12 => random.within(3_000, 9_000),
        _ => random.within(1, 60),
    };
    cells as u32
}

/// A call of a list; some are wrong.
fn any_request(cells: u32, empty: u32, random: &mut Random) -> Request {
    if random.once_in(8) {
        let change = if random.once_in(4) {
            settings::wrong(random)
        } else {
            settings::any(random)
        };
        return Request::Change(change);
    }
    let near = random.below(cells.min(8) as usize) as u32;
    let at = random.below(cells as usize) as u32;
    let position = match random.below(40) {
        0 => cells,
        1 => u32::MAX - random.below(3) as u32,
        2..=8 => near,
        9..=14 => cells - 1 - near,
        15..=18 => (255 + near).min(cells - 1),
        _ => at,
    };
    let word = if random.once_in(4) {
        empty
    } else {
        any_word(empty, random)
    };
    Request::Write(position, word)
}

/// One list from an all-empty picture: after each step the engine's number and file are the table's.
pub fn one(sides: &mut Sides) {
    let cells = any_cells(&mut sides.random);
    let (dimensions, extents) = any_extents(cells, &mut sides.random);
    let empty = any_empty(&mut sides.random);
    let setting = settings::any(&mut sides.random);
    let mut table = Table::new(setting, dimensions, extents, empty, cells);
    let mut file = first_file(setting, dimensions, extents, empty, cells);
    assert_eq!(file, table.file(), "the first file of a list");
    let steps = if cells > 60_000 {
        12
    } else {
        sides.random.within(1, 80)
    };
    for _ in 0..steps {
        let request = any_request(cells, empty, &mut sides.random);
        let more = sides.random.below(60);
        let room = sides.random.one_of(&[
            file.len(),
            file.len() + 4,
            file.len() + 9,
            file.len() + more,
            20 * file.len(),
            more,
        ]);
        let wanted = table.feed(request, room);
        let after = step(sides, &file, request, room, &wanted);
        if let Ok(table_file) = &wanted {
            file = after[..table_file.len()].to_vec();
        }
        sides.tally.steps += 1;
    }
    assert_eq!(file, table.file(), "the last file of a list");
    answers_as_the_table(&file, &table, empty, &mut sides.random);
    sides.tally.lists += 1;
}

/// The file that make puts out for words that are all E.
fn first_file(
    setting: Setting,
    dimensions: u32,
    extents: [u32; 4],
    empty: u32,
    cells: u32,
) -> Vec<u8> {
    let words = vec![empty; cells as usize];
    let mut file = vec![9; 52];
    let made = calls::make(setting, dimensions, &extents, empty, &words, &mut file);
    assert_eq!(made, Ok(52), "the first file of a list");
    file
}

/// One call of the engine; gives the destination's final contents.
fn step(
    sides: &mut Sides,
    file: &[u8],
    request: Request,
    room: usize,
    wanted: &Result<Vec<u8>, u32>,
) -> Vec<u8> {
    let number = |answer: Result<usize, radar_archive::Refusal>| {
        answer.err().map_or(0, |refusal| refusal.number())
    };
    let what = || format!("{request:?}, file {file:?}");
    match request {
        Request::Write(position, word) => {
            let engine = |dst: &mut [u8]| number(calls::write(file, Position(position), word, dst));
            sides.put_out_in("write in a list", wanted, room, engine, what)
        }
        Request::Change(setting) => {
            let engine = |dst: &mut [u8]| number(calls::change(file, setting, dst));
            sides.put_out_in("change in a list", wanted, room, engine, what)
        }
    }
}

/// The lookups and expand on the list's file, against the table's words alone.
fn answers_as_the_table(file: &[u8], table: &Table, empty: u32, random: &mut Random) {
    let archive = match Archive::open(file) {
        Ok(archive) => archive,
        Err(refusal) => panic!("the last file of a list is refused: {refusal}"),
    };
    assert_eq!(archive.expand(), table.words);
    let stored: Vec<u32> = (0..)
        .zip(&table.words)
        .filter(|(_, &word)| word != empty)
        .map(|(at, _)| at)
        .collect();
    let cells = table.words.len();
    for _ in 0..cells.min(100) {
        let at = random.below(cells) as u32;
        assert_eq!(archive.cell(Position(at)), Ok(table.words[at as usize]));
        let wanted = match stored.binary_search(&at) {
            Ok(rank) => Ranked::Stored(Rank(rank as u32)),
            Err(before) => Ranked::Empty(before as u32),
        };
        assert_eq!(archive.rank(Position(at)), Ok(wanted));
        assert_eq!(calls::rank(file, Position(at)), Ok(wanted));
    }
    counts_as_the_table(&archive, table, empty, random);
    for ((rank, position, word), (index, &at)) in archive.stored_cells().zip((0..).zip(&stored)) {
        assert_eq!(
            (rank.0, position.0, word),
            (index, at, table.words[at as usize])
        );
    }
    assert_eq!(archive.stored_cells().len(), stored.len());
}

/// The stored cells between some pairs of positions, against the table's words alone.
fn counts_as_the_table(archive: &Archive<&[u8]>, table: &Table, empty: u32, random: &mut Random) {
    let cells = table.words.len();
    for _ in 0..10 {
        let (one, two) = (random.below(cells), random.below(cells));
        let (from, to) = (one.min(two), one.max(two));
        let words = table.words[from..=to].iter();
        let wanted = words.filter(|&&word| word != empty).count() as u32;
        let counted = archive.count(Position(from as u32), Position(to as u32));
        assert_eq!(counted, Ok(wanted), "{from} to {to}");
    }
}
