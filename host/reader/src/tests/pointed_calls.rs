//! Kind 6 (S-7): writes, changes and lookups.

use super::*;
use crate::*;

/// Jumps, differences and pointers of a file of kind 6.
#[derive(Debug, PartialEq, Eq)]
struct Pointed {
    jumps: Vec<u32>,
    differences: Vec<u32>,
    pointers: Vec<u32>,
}

/// What stands before the words of an accepted file of kind 6.
fn read(file: &[u8]) -> Pointed {
    assert_eq!((file[0], checked(file)), (6, 0));
    let width = u32::from(file[2]);
    let (first, second, words) = (field(file, 36), field(file, 40), field(file, 44));
    let behind = second + width * field(file, 24);
    let fours = |from: u32, to: u32| {
        let places = (from..to).step_by(4);
        places.map(|at| field(file, at as usize)).collect()
    };
    let difference = |at: u32| {
        let at = at as usize;
        let high = if width == 2 { file[at + 1] } else { 0 };
        u32::from(file[at]) + 256 * u32::from(high)
    };
    Pointed {
        jumps: fours(first, second),
        differences: (second..behind)
            .step_by(width as usize)
            .map(difference)
            .collect(),
        pointers: fours(behind, words),
    }
}

/// Jumps and pointers after each of the writes, which follow one another. 900 cells, of which those
/// named are stored at first.
fn after_writes(step: u32, stored: &[usize], writes: &[(u32, u32)]) -> Vec<(Vec<u32>, Vec<u32>)> {
    let setting = Setting::new(6, 1, step);
    let mut words = stored_at(900, stored);
    let mut file = line(setting, &words).unwrap();
    let mut seen = Vec::new();
    for &(at, word) in writes {
        file = write(&file, Position(at), word, ROOM).unwrap();
        words[at as usize] = word;
        assert_eq!(Ok(&file), line(setting, &words).as_ref());
        let Pointed {
            jumps, pointers, ..
        } = read(&file);
        seen.push((jumps, pointers));
    }
    seen
}

#[test]
fn a_write_shifts_the_pointers_of_later_jumps() {
    let seen = after_writes(1, &[2, 300, 600], &[(5, 7), (301, 7), (5, 0), (1, 7)]);
    // Stored are 2 5 300 600, then 2 5 300 301 600.
    assert_eq!(seen[0], (vec![2, 300, 600], vec![0, 2, 3]));
    assert_eq!(seen[1], (vec![2, 300, 600], vec![0, 2, 4]));
    assert_eq!(seen[2], (vec![2, 300, 600], vec![0, 1, 3]));
    // A cell before the first one takes over its jump.
    assert_eq!(seen[3], (vec![1, 300, 600], vec![0, 2, 4]));
}

#[test]
fn a_write_adds_a_jump() {
    // At the end, then by emptying the cell before the next rank.
    let seen = after_writes(1, &[2, 150, 300], &[(899, 7), (150, 0)]);
    assert_eq!(seen[0], (vec![2, 899], vec![0, 3]));
    assert_eq!(seen[1], (vec![2, 300, 899], vec![0, 1, 2]));
    let seen = after_writes(2, &[2, 150, 300], &[(899, 7), (150, 0)]);
    assert_eq!(seen[0], (vec![2, 899], vec![0]));
    assert_eq!(seen[1], (vec![2, 300, 899], vec![0, 2]));
    // The first stored cell of all.
    let seen = after_writes(2, &[], &[(0, 7)]);
    assert_eq!(seen[0], (vec![0], vec![0]));
}

#[test]
fn a_write_removes_a_jump() {
    let stored = [2, 300, 600, 899];
    let writes = [(150, 7), (899, 0), (2, 0)];
    let seen = after_writes(1, &stored, &writes);
    assert_eq!(seen[0], (vec![2, 600, 899], vec![0, 3, 4]));
    assert_eq!(seen[1], (vec![2, 600], vec![0, 3]));
    assert_eq!(seen[2], (vec![150, 600], vec![0, 2]));
    // With step 2 the second pointer passes from the jump to 600 to the one to 899.
    let seen = after_writes(2, &stored, &writes);
    assert_eq!(seen[0], (vec![2, 600, 899], vec![0, 4]));
    assert_eq!(seen[1], (vec![2, 600], vec![0]));
    // The last stored cell of all.
    let seen = after_writes(1, &[7], &[(7, 0)]);
    assert_eq!(seen[0], (vec![], vec![]));
}

#[test]
fn a_write_wants_room_for_the_pointers_too() {
    let setting = Setting::new(6, 1, 1);
    let file = line(setting, &stored_at(900, &[2])).unwrap();
    assert_eq!(file.len(), 52 + 4 + 1 + 4 + 4);
    // A jump, a difference, a pointer and a word more.
    let longer = file.len() + 13;
    let written = |room| write(&file, Position(300), 7, room);
    assert_eq!(written(longer - 1), Err(Refusal::Small));
    assert_eq!(written(longer), line(setting, &stored_at(900, &[2, 300])));
    assert_eq!(write(&file, Position(900), 7, 0), Err(Refusal::Beyond));
}

#[test]
fn changes_between_kinds_4_and_6() {
    let words = stored_at(70_000, &[2, 258, 259, 1000, 1300, 69_999]);
    for width in [1, 2] {
        let jumps = line(Setting::new(4, width, 0), &words).unwrap();
        let jump_count = field(&jumps, 28);
        assert_eq!(jump_count, if width == 1 { 5 } else { 2 });
        for step in [1, 2, 3, 4, 5, 6, 255] {
            let setting = Setting::new(6, width, step);
            let pointers = line(setting, &words).unwrap();
            let more = 4 * jump_count.div_ceil(step) as usize;
            assert_eq!(pointers.len(), jumps.len() + more);
            let changed = |room| change(&jumps, setting, room);
            assert_eq!(changed(pointers.len()), Ok(pointers.clone()));
            assert_eq!(changed(pointers.len() - 1), Err(Refusal::Small));
            let back = change(&pointers, Setting::new(4, width, 0), jumps.len());
            assert_eq!(back, Ok(jumps.clone()));
            // Jumps and differences are the same bytes; only the pointers stand between.
            let ends = (field(&jumps, 44) as usize, field(&pointers, 44) as usize);
            assert_eq!(jumps[52..ends.0], pointers[52..ends.0]);
            assert_eq!(jumps[ends.0..], pointers[ends.1..]);
            assert_eq!(shorter(&pointers, &jumps), Ok(1));
            let other = Setting::new(6, 3 - width, step);
            assert_eq!(change(&pointers, other, ROOM), line(other, &words));
        }
    }
    let pointers = line(Setting::new(6, 1, 1), &words).unwrap();
    let unfit = change(&pointers, Setting::new(3, 1, 2), 0);
    assert_eq!(unfit, Err(Refusal::Unfit));
}

/// What the rank lookup finds at a position by the pointers, as source document 004 walks from the
/// last jump that has one and doesn't lie beyond the position. The walk ends at the first stored
/// cell that doesn't lie before the position, or past the last one; its rank counts those before.
fn by_pointers(file: &[u8], position: u32) -> Ranked {
    let step = file[3] as usize;
    let parts = read(file);
    let pointed_jumps = parts.jumps.iter().step_by(step);
    let before = pointed_jumps.filter(|&&jump| jump <= position).count();
    if before == 0 {
        return Ranked::Empty(0);
    }
    let mut jump = (before - 1) * step;
    let mut rank = parts.pointers[jump / step] as usize;
    let mut at = parts.jumps[jump];
    while at < position {
        rank += 1;
        match parts.differences.get(rank) {
            None => return Ranked::Empty(rank as u32),
            Some(0) => {
                jump += 1;
                at = parts.jumps[jump];
            }
            Some(difference) => at += difference,
        }
    }
    if at == position {
        Ranked::Stored(Rank(rank as u32))
    } else {
        Ranked::Empty(rank as u32)
    }
}

/// Positions with gaps of 1, 255 and 256 cells and more between them.
const PLACES: [usize; 6] = [0, 1, 256, 257, 513, 790];

/// Every picture of 800 cells that stores 7 at some of the places, and nothing elsewhere.
fn sparse_pictures() -> Vec<Vec<u32>> {
    let mut pictures = vec![vec![0; 800]];
    for place in PLACES {
        for mut words in pictures.clone() {
            words[place] = 7;
            pictures.push(words);
        }
    }
    pictures
}

#[test]
fn the_pointers_lead_to_the_ranks() {
    for words in sparse_pictures() {
        for step in [1, 2, 3] {
            let file = line(Setting::new(6, 1, step), &words).unwrap();
            let says = parsed(&file);
            for at in PLACES.iter().flat_map(|&place| [place, place + 1]) {
                let found = by_pointers(&file, at as u32);
                assert_eq!(says.rank(Position(at as u32)), Ok(found));
                assert_eq!(found, counted(0, &words, at));
            }
        }
    }
}

#[test]
fn lookups_and_parts_of_the_sample() {
    for (width, step, words_at) in [(1, 1, 64), (1, 2, 64), (2, 1, 68), (2, 255, 68)] {
        let file = sample(Setting::new(6, width, step));
        assert_eq!(rank(&file, Position(5)), Ok(Ranked::Stored(Rank(2))));
        assert_eq!(rank(&file, Position(6)), Ok(Ranked::Empty(3)));
        assert_eq!(rank(&file, Position(11)), Ok(Ranked::Empty(4)));
        assert_eq!(position(&file, Rank(3)), Ok(Position(10)));
        assert_eq!(position(&file, Rank(4)), Err(Refusal::Beyond));
        assert_eq!(cell(&file, Position(10)), Ok(300));
        assert_eq!(expand(&file, 12), Ok(SAMPLE.to_vec()));
        let boxed = box_words(&file, &[2, 0, 0, 0], &[5, 0, 0, 0], 4);
        assert_eq!(boxed, Ok(vec![7, 9, 0, 5]));
        // The stored words stand behind the pointers.
        let part = rank_range(&file, Rank(1), Rank(3));
        assert_eq!(part, Ok((words_at + 4, 8)));
    }
}

/// Every picture of so many cells with words 0, 1 and 300.
fn pictures(cells: u32) -> Vec<Vec<u32>> {
    let word = |number: u32, at: u32| [0, 1, 300][(number / 3u32.pow(at) % 3) as usize];
    (0..3u32.pow(cells))
        .map(|number| (0..cells).map(|at| word(number, at)).collect())
        .collect()
}

/// The words come back from a file made in the setting, and from kind 2 and back.
fn goes_round(setting: Setting, words: &[u32]) {
    let file = line(setting, words).unwrap();
    assert_eq!(parsed(&file).setting, setting);
    assert_eq!(expand(&file, words.len()).as_deref(), Ok(words));
    let positions = change(&file, Setting::new(2, 0, 0), ROOM).unwrap();
    assert_eq!(Ok(&positions), line(Setting::new(2, 0, 0), words).as_ref());
    assert_eq!(change(&positions, setting, file.len()), Ok(file));
}

#[test]
fn all_pictures_of_up_to_5_cells_go_round() {
    for (width, step) in [(1, 1), (1, 2), (2, 1), (2, 3), (1, 255), (2, 255)] {
        let setting = Setting::new(6, width, step);
        for cells in 1..=5 {
            for words in pictures(cells) {
                goes_round(setting, &words);
            }
        }
        for words in sparse_pictures() {
            goes_round(setting, &words);
        }
    }
}
