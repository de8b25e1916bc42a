//! Damaged and forged files: the diagnosis agrees with the engine, and always has a sentence and a byte of its own.

use std::collections::{BTreeMap, BTreeSet};
use std::time::Instant;

use radar_archive::diagnosis::{first_fault, of};
use radar_archive::{calls, Fault, Refusal, Setting, MOST_CELLS};
use side_by_side::random::Random;
use side_by_side::textures::{Sketch, NAMES};
use side_by_side::{forge, settings};

use crate::{files, parts, rows};

const SEED: u64 = 20_020_403;

/// Files from which others are forged, and those forged from each.
const PICTURES: usize = 900;
const FORGED: usize = 25;

/// The numbers met, and the sentences met without their values.
#[derive(Default)]
struct Met {
    numbers: BTreeMap<u32, usize>,
    shapes: BTreeMap<String, usize>,
}

impl Met {
    /// Compares the diagnosis of any bytes with the engine's number.
    fn compare(&mut self, file: &[u8]) {
        let found = first_fault(file);
        let Err(refusal) = calls::check(file) else {
            assert_eq!(found, None, "{file:?}");
            *self.numbers.entry(0).or_default() += 1;
            return;
        };
        let fault = of(file, refusal);
        assert_eq!(found.as_ref(), Some(&fault), "{file:?}");
        right_byte(file, &fault);
        *self.numbers.entry(refusal.number()).or_default() += 1;
        *self.shapes.entry(shape(&fault.message)).or_default() += 1;
    }

    /// Prints what was met.
    fn print(&self) {
        println!("numbers: {:?}", self.numbers);
        for (shape, count) in &self.shapes {
            println!("{count:8} {shape}");
        }
    }
}

/// Sentences of number 6 about a field of the header: another step, an extent, the empty word.
const HEADER_SENTENCES: [(&str, std::ops::Range<usize>); 3] = [
    ("the step is ", 3..4),
    ("the last stored cell is at ", 4..20),
    ("the empty word is ", 20..21),
];

/// The byte is in the header for 2 to 5, and after it for 6 but for the sentences about a field of the header; 1 has none.
fn right_byte(file: &[u8], fault: &Fault) {
    let about = |(begin, _): &&(&str, _)| fault.message.starts_with(begin);
    let right = match (fault.refusal.number(), fault.byte) {
        (1, None) => true,
        (2..=5, Some(byte)) => byte < 52,
        (6, Some(byte)) => match HEADER_SENTENCES.iter().find(about) {
            Some((_, field)) => field.contains(&byte),
            None => (52..file.len()).contains(&byte),
        },
        _ => false,
    };
    assert!(right, "{fault:?} {file:?}");
}

/// A sentence without its values: each number becomes `#`, plurals and lists of extents become one.
fn shape(message: &str) -> String {
    let mut shape = String::new();
    for letter in message.replace(',', "").chars() {
        let digit = letter.is_ascii_digit();
        if !(digit && shape.ends_with('#')) {
            shape.push(if digit { '#' } else { letter });
        }
    }
    for (many, one) in [
        (" x #", ""),
        ("extents # hold ", "extent # holds "),
        ("cells", "cell"),
        ("runs", "run"),
        ("jumps", "jump"),
        ("bytes", "byte"),
        ("differences", "difference"),
        ("pointers", "pointer"),
        ("# or #", "#"),
        ("# to #", "#"),
    ] {
        shape = shape.replace(many, one);
    }
    shape
}

/// A damaged file, or one damaged twice, or with some bytes set to any value.
fn any_forged(file: &[u8], says: &reader::Parsed, random: &mut Random) -> Vec<u8> {
    let (_, mut bad) = forge::any(file, says, random);
    if random.once_in(10) && !bad.is_empty() {
        for _ in 0..random.within(1, 8) {
            let at = random.below(bad.len());
            bad[at] = random.word() as u8;
        }
    }
    bad
}

#[test]
fn forged_files() {
    println!("seed {SEED}");
    let mut random = Random::new(SEED);
    let mut met = Met::default();
    for index in 0..PICTURES {
        let sketch = Sketch::of(NAMES[index % NAMES.len()], &mut random);
        for kind in 1..=6 {
            let setting = settings::reader(settings::any_of_kind(kind, &mut random));
            let Sketch {
                dimensions,
                extents,
                empty,
                words,
                ..
            } = &sketch;
            let made = reader::make(setting, *dimensions, extents, *empty, words, usize::MAX);
            let Ok(file) = made else {
                continue;
            };
            met.compare(&file);
            let says = reader::check(&file).unwrap();
            for _ in 0..FORGED {
                met.compare(&any_forged(&file, &says, &mut random));
            }
        }
    }
    met.print();
    let files: usize = met.numbers.values().sum();
    println!("{files} files");
    assert!(files > 100_000);
    assert_eq!(met.numbers.len(), 7);
    same_sentences(&met);
}

/// The sentences met are those of the rows, no fewer and no more.
fn same_sentences(met: &Met) {
    let met: BTreeSet<String> = met.shapes.keys().cloned().collect();
    let read: BTreeSet<String> = rows::all().iter().map(|row| shape(row.2)).collect();
    let unread: Vec<_> = met.difference(&read).collect();
    let unmet: Vec<_> = read.difference(&met).collect();
    assert!(unread.is_empty(), "no row has {unread:#?}");
    assert!(unmet.is_empty(), "no forged file has {unmet:#?}");
}

/// Each byte of the sample files with each value, and each beginning of them.
#[test]
fn every_byte_of_the_samples() {
    let mut met = Met::default();
    for kind in 1..=6 {
        let file = files::sample(kind);
        for at in 0..file.len() {
            met.compare(&file[..at]);
            for value in 0..=255 {
                met.compare(&files::with_byte(file.clone(), at, value));
            }
        }
    }
    met.print();
    assert_eq!(met.numbers.len(), 7);
}

/// Any bytes after a header whose counts, offsets and length agree.
#[test]
fn any_bytes_as_parts() {
    println!("seed {SEED}");
    let mut random = Random::new(SEED);
    let mut met = Met::default();
    for _ in 0..100_000 {
        let file = parts::any(&mut random);
        assert_ne!(calls::check(&file), Err(Refusal::Counts), "{file:?}");
        met.compare(&file);
    }
    met.print();
    assert!(met.numbers[&0] > 1_000 && met.numbers[&6] > 10_000);
}

/// The time on the largest pictures with the last word wrong, printed and not tested.
#[test]
fn the_largest_files() {
    let words: Vec<u32> = (0..MOST_CELLS).map(|at| at & 1).collect();
    for setting in [
        Setting::runs(),
        Setting::positions(),
        Setting::base_offset(1, 2),
        Setting::jumps(1),
        Setting::paged_runs(2),
        Setting::pointed_jumps(1, 2),
    ] {
        let mut file = files::line(setting, &words);
        assert_eq!(first_fault(&file), None);
        let at = file.len() - 4;
        forge::set_field(&mut file, at, 0);
        assert_eq!(calls::check(&file), Err(Refusal::Body));
        let start = Instant::now();
        let fault = of(&file, Refusal::Body);
        println!("{}: {:.2} s", setting.kind, start.elapsed().as_secs_f64());
        assert_eq!(
            fault.message,
            "the word of rank 8388607 is 0, the empty word"
        );
        assert_eq!(fault.byte, Some(at));
    }
}
