//! The table of demand 3.

use super::*;
use crate::*;

const EXTENTS: [u32; 4] = [20, 15, 1, 1];

/// A write as a table is fed it.
fn write_of(at: u32, word: u32) -> Request {
    Request::Write {
        position: Position(at),
        word,
    }
}

/// A change as a table is fed it.
fn change_to(kind: u32, width: u32, step: u32) -> Request {
    let setting = Setting::new(kind, width, step);
    Request::Change { setting }
}

#[test]
fn a_table_starts_with_words_that_are_all_empty() {
    let new = |kind, count, room| Table::new(Setting::new(kind, 0, 0), count, &EXTENTS, 9, room);
    let table = new(1, 2, 52).unwrap();
    assert_eq!(table.words(), [9; 300]);
    assert_eq!(table.setting(), Setting::new(1, 0, 0));
    let made = make(table.setting(), 2, &EXTENTS, 9, &[9; 300], 52);
    assert_eq!(Ok(table.file().to_vec()), made);
    assert_eq!(new(9, 0, 0), Err(Refusal::Kind));
    assert_eq!(new(3, 0, 0), Err(Refusal::Setting));
    assert_eq!(new(1, 0, 0), Err(Refusal::Extent));
    assert_eq!(new(1, 2, 51), Err(Refusal::Small));
}

#[test]
fn a_table_gives_the_numbers_in_order() {
    let mut table = Table::new(Setting::new(3, 1, 2), 2, &EXTENTS, 0, 52).unwrap();
    assert_eq!(table.feed(write_of(300, 7), 0), 8);
    assert_eq!(table.feed(write_of(2, 7), 60), 10);
    assert_eq!(table.feed(write_of(2, 7), 61), 0);
    assert_eq!(table.feed(write_of(258, 7), 0), 9);
    assert_eq!(table.words()[258], 0);
    assert_eq!(table.feed(change_to(7, 9, 9), 0), 2);
    assert_eq!(table.feed(change_to(6, 9, 9), 0), 3);
    assert_eq!(table.feed(change_to(3, 9, 9), 0), 3);
    assert_eq!(table.feed(change_to(4, 1, 0), 0), 10);
    assert_eq!(table.feed(change_to(4, 1, 0), 61), 0);
    assert_eq!(table.feed(write_of(258, 7), 70), 0);
    assert_eq!(table.feed(change_to(3, 1, 2), 0), 9);
    assert_eq!(table.setting(), Setting::new(4, 1, 0));
    assert_eq!(table.feed(write_of(2, 0), 61), 0);
    assert_eq!(Ok(table.file().to_vec()), {
        let words = stored_at(300, &[258]);
        make(table.setting(), 2, &EXTENTS, 0, &words, ROOM)
    });
}

#[test]
fn a_table_keeps_the_pointers_of_kind_6() {
    let setting = Setting::new(6, 1, 1);
    let mut table = Table::new(setting, 2, &EXTENTS, 0, 52).unwrap();
    // A jump, a difference, a pointer and a word.
    assert_eq!(table.feed(write_of(258, 7), 64), 10);
    assert_eq!(table.feed(write_of(258, 7), 65), 0);
    assert_eq!(table.feed(write_of(2, 7), 78), 0);
    assert_eq!(field(table.file(), 66), 1);
    // A cell before them: a difference and a word, and the second pointer moves.
    assert_eq!(table.feed(write_of(1, 7), 82), 10);
    assert_eq!(table.feed(write_of(1, 7), 83), 0);
    assert_eq!(field(table.file(), 67), 2);
    assert_eq!(table.feed(change_to(6, 1, 2), 78), 10);
    assert_eq!(table.feed(change_to(6, 1, 2), 79), 0);
    assert_eq!(table.feed(change_to(6, 1, 256), ROOM), 3);
    assert_eq!(table.feed(change_to(4, 1, 0), 75), 0);
    assert_eq!(table.feed(change_to(7, 0, 0), ROOM), 2);
    assert_eq!(table.setting(), Setting::new(4, 1, 0));
}

/// Numbers that look mixed, from a seed that moves on.
fn mixed(seed: &mut u32, below: u32) -> u32 {
    *seed = seed.wrapping_mul(1_664_525).wrapping_add(1_013_904_223);
    (*seed >> 8) % below
}

/// A request for a picture of 5000 cells with few stored ones, in kinds 4 and 6, that is sometimes
/// wrong.
fn sparse_request(seed: &mut u32) -> Request {
    if mixed(seed, 6) == 0 {
        let (kind, step) =
            [(4, 0), (6, 0), (6, 1), (6, 2), (6, 7), (6, 256)][mixed(seed, 6) as usize];
        change_to(kind, 1 + mixed(seed, 2), step)
    } else {
        write_of(100 * mixed(seed, 51) + mixed(seed, 2), mixed(seed, 3))
    }
}

/// A request that is sometimes wrong.
fn any_request(seed: &mut u32) -> Request {
    if mixed(seed, 6) == 0 {
        let steps = [0, 0, 0, 1, 2, 3, 64, 255, 256];
        let step = steps[mixed(seed, 9) as usize];
        change_to(mixed(seed, 8), mixed(seed, 3), step)
    } else {
        write_of(mixed(seed, 305), mixed(seed, 3))
    }
}

/// Feeds a table and a list the same calls; how often each number was given.
fn side_by_side(
    setting: Setting,
    extents: [u32; 4],
    calls: u32,
    next: fn(&mut u32) -> Request,
) -> [u32; 12] {
    let mut table = Table::new(setting, 2, &extents, 0, ROOM).unwrap();
    let mut file = make(setting, 2, &extents, 0, table.words(), ROOM).unwrap();
    let mut seed = 1;
    let mut seen = [0; 12];
    for _ in 0..calls {
        let request = next(&mut seed);
        let room = (file.len() + mixed(&mut seed, 60) as usize).saturating_sub(10);
        let answer = match request {
            Request::Write { position, word } => write(&file, position, word, room),
            Request::Change { setting } => change(&file, setting, room),
        };
        let given = table.feed(request, room);
        assert_eq!(given, number(&answer));
        seen[given as usize] += 1;
        file = answer.unwrap_or(file);
        assert_eq!(file, table.file());
    }
    seen
}

#[test]
fn a_table_and_a_list_of_calls_agree() {
    let seen = side_by_side(Setting::new(3, 1, 2), EXTENTS, 3000, any_request);
    assert!([0, 2, 3, 8, 9, 10].iter().all(|&given| seen[given] > 0));
}

#[test]
fn a_table_and_a_list_of_calls_agree_on_jumps_and_pointers() {
    let extents = [50, 100, 1, 1];
    let seen = side_by_side(Setting::new(6, 1, 2), extents, 1000, sparse_request);
    assert!([0, 3, 8, 10].iter().all(|&given| seen[given] > 0));
    assert_eq!((seen[2], seen[9]), (0, 0));
}
