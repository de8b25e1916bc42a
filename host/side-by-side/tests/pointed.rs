//! Kind 6 in all rows of a few gaps, in long files, and forged.

mod common;

use common::*;
use side_by_side::pointers::POINTERS;
use side_by_side::random::Random;
use side_by_side::settings::{self, Setting};
use side_by_side::sides::Sides;
use side_by_side::{forge, pointers};

const STEPS: [u32; 5] = [1, 2, 3, 16, 255];

/// All rows of up to so many stored positions, the first at 0 or 3 and the others by one of these gaps further.
fn rows(gaps: &[usize], most: usize) -> Vec<Vec<usize>> {
    let mut rows = vec![vec![0], vec![3]];
    let mut from = 0;
    for _ in 1..most {
        let to = rows.len();
        for row in from..to {
            for gap in gaps {
                let mut longer = rows[row].clone();
                longer.push(longer[longer.len() - 1] + gap);
                rows.push(longer);
            }
        }
        from = to;
    }
    rows
}

/// Every lookup at the stored positions and beside them, and writes there.
fn calls_on(sides: &mut Sides, file: &[u8], stored: &[usize]) {
    let checked = sides.check(file);
    let says = checked.as_ref().unwrap();
    for (rank, &position) in (0..).zip(stored) {
        let position = position as u32;
        for beside in [position, position + 1, position.saturating_sub(1)] {
            sides.opened(file, says, beside, rank);
            sides.rank(file, &checked, beside);
        }
        sides.position(file, &checked, rank);
        for word in [0, 9] {
            sides.write(file, position, word);
            sides.write(file, position + 1, word);
        }
    }
    sides.expand(file, &checked);
    sides.ranks(file, &checked, 0, stored.len() as u32);
    let high = stored[stored.len() - 1] as u32;
    sides.box_words(file, &checked, &[1, 0, 0, 0], &[high.max(1), 0, 0, 0]);
}

/// All rows in kind 6 with a width, in all steps.
fn all_rows(width: u32, gaps: &[usize], most: usize) {
    let mut sides = Sides::new(11);
    for stored in rows(gaps, most) {
        let words = stored_at(stored[stored.len() - 1] + 3, &stored);
        let kind_4 = line([4, width, 0], &words).unwrap();
        for step in STEPS {
            let setting = [6, width, step];
            let file = line(setting, &words).unwrap();
            assert_eq!(sides.change(&kind_4, setting).as_ref(), Some(&file));
            sides.shorter(&file, &kind_4);
            calls_on(&mut sides, &file, &stored);
        }
    }
    println!("{} cases", sides.tally.cases());
}

#[test]
fn all_rows_of_gaps_past_one_byte() {
    all_rows(1, &[1, 255, 256], 5);
}

#[test]
fn all_rows_of_gaps_past_two_bytes() {
    all_rows(2, &[1, 65_535, 65_536], 3);
}

/// So many jumps, each with up to 3 stored cells after it.
fn many_jumps(width: u32, jumps: usize) -> Vec<usize> {
    let mut random = Random::new(12);
    let mut stored = Vec::new();
    let mut position = random.below(3);
    for _ in 0..jumps {
        let more = random.below(4);
        stored.extend(position..=position + more);
        position += more + 256usize.pow(width) + random.below(2);
    }
    stored
}

/// Every stored cell of a long file looked up, and some written.
fn long_file(sides: &mut Sides, setting: Setting, stored: &[usize]) -> Vec<u8> {
    let words = stored_at(stored[stored.len() - 1] + 300, stored);
    let file = line(setting, &words).unwrap();
    let checked = sides.check(&file);
    let says = checked.as_ref().unwrap();
    for (rank, &position) in (0..).zip(stored) {
        let position = position as u32;
        for beside in [position, position + 1, position.saturating_sub(1)] {
            sides.opened(&file, says, beside, rank);
        }
    }
    sides.expand(&file, &checked);
    let cells = words.len() as u32;
    for position in [0, 1, stored[1] as u32, cells / 2, cells - 1] {
        for word in [0, 9] {
            if let Some(written) = sides.write(&file, position, word) {
                sides.change(&written, [4, setting[1], 0]);
            }
        }
    }
    file
}

#[test]
fn files_of_many_pointers() {
    let mut sides = Sides::new(13);
    for (width, jumps) in [(1, 600), (2, 20)] {
        let stored = many_jumps(width, jumps);
        for step in STEPS {
            let file = long_file(&mut sides, [6, width, step], &stored);
            assert_eq!(field(&file, 28), jumps as u32);
        }
    }
    println!("{} cases", sides.tally.cases());
}

/// Forged pointers in every step: both sides give one number, and unchecked lookups end.
#[test]
fn forged_pointers() {
    let mut sides = Sides::new(14);
    let mut random = Random::new(15);
    let mut numbers = [0; 7];
    let stored = many_jumps(1, 40);
    let words = stored_at(stored[stored.len() - 1] + 3, &stored);
    for step in 1..=45 {
        let file = line([6, 1, step], &words).unwrap();
        let says = sides.check(&file).unwrap();
        for turn in 0..8 * POINTERS.len() {
            let (_, bad) = if turn % 2 == 0 {
                pointers::any(&file, &says, &mut random)
            } else {
                forge::any(&file, &says, &mut random)
            };
            let checked = sides.check(&bad);
            numbers[checked
                .as_ref()
                .map_or_else(|&number| number as usize, |_| 0)] += 1;
            if checked.is_err() {
                let position = random.below(words.len()) as u32;
                let rank = random.below(stored.len()) as u32;
                sides.opened_over_any(&bad, position, rank);
            }
            let setting = settings::any(&mut random);
            sides.change(&bad, setting);
            sides.write(&bad, 0, 9);
        }
    }
    println!("{numbers:?}");
    assert!(numbers[5] > 100 && numbers[6] > 100, "{numbers:?}");
}
