//! Forged files whose counts, offsets and length agree with each other, so that the parts themselves are looked at.

use reader::Parsed;

use crate::forge::{field, set_field, Forged};
use crate::pointers;
use crate::random::Random;
use crate::settings::{self, Setting};

/// Places of a forged file whose counts, offsets and length agree.
pub const AGREEING: [&str; 8] = [
    "an entry of the first part added",
    "an entry of the first part removed",
    "an entry of the second part added",
    "an entry of the second part removed",
    "a word added",
    "a word removed",
    "another setting",
    "no entries",
];

/// The parts of a file, to be put together again with counts, offsets and length that agree.
#[derive(Clone, Debug)]
struct Parts {
    /// The header, whose counts, offsets and length are laid anew.
    header: Vec<u8>,
    /// The entries of the first part.
    first: Vec<Vec<u8>>,
    /// The entries of the second part.
    second: Vec<Vec<u8>>,
    /// The pointers of kind 6, which no count has.
    pointers: Vec<Vec<u8>>,
    /// The stored words.
    words: Vec<Vec<u8>>,
}

impl Parts {
    /// Takes an accepted file apart.
    fn of(file: &[u8], says: &Parsed) -> Parts {
        let second_at = field(file, 40) as usize;
        let pointers_at = says.words_at - pointers::length(file, says);
        let (first_size, second_size) = sizes(says.setting.kind, says.setting.width);
        let entries = |from: usize, to: usize, size: usize| -> Vec<Vec<u8>> {
            file[from..to].chunks(size).map(<[u8]>::to_vec).collect()
        };
        Parts {
            header: file[..52].to_vec(),
            first: entries(52, second_at, first_size),
            second: entries(second_at, pointers_at, second_size),
            pointers: entries(pointers_at, says.words_at, 4),
            words: entries(says.words_at, file.len(), 4),
        }
    }

    /// The file of the parts.
    fn file(&self) -> Vec<u8> {
        let mut file = self.header.clone();
        let second_at = 52 + self.first.concat().len();
        let words_at = second_at + self.second.concat().len() + self.pointers.concat().len();
        let length = words_at + self.words.concat().len();
        let fields = [
            self.words.len(),
            self.first.len(),
            self.second.len(),
            52,
            second_at,
            words_at,
            length,
        ];
        for (index, value) in fields.into_iter().enumerate() {
            set_field(&mut file, 24 + 4 * index, value as u32);
        }
        file.extend(
            [
                self.first.concat(),
                self.second.concat(),
                self.pointers.concat(),
                self.words.concat(),
            ]
            .concat(),
        );
        file
    }

    /// Makes the counts agree that the layout fixes by N or by level 0.
    fn match_counts(&mut self, setting: &reader::Setting) {
        let (stored, step) = (self.words.len(), setting.step as usize);
        let (_, second_size) = sizes(setting.kind, setting.width);
        match setting.kind {
            2 => self.first.resize(stored, vec![0; 4]),
            3 => {
                self.first.resize(stored.div_ceil(step), vec![0; 4]);
                self.second.resize(stored, vec![0; second_size]);
            }
            4 => self.second.resize(stored, vec![1; second_size]),
            5 => self.match_levels(step),
            6 => {
                self.second.resize(stored, vec![1; second_size]);
                self.match_pointers(step);
            }
            _ => {}
        }
    }

    /// Makes the number of upper entries the one that level 0 gives.
    fn match_levels(&mut self, step: usize) {
        let mut level = self.second.len();
        let mut upper = 0;
        while level > step {
            level = level.div_ceil(step);
            upper += level;
        }
        self.first.resize(upper, vec![0; 8]);
    }

    /// Makes the number of pointers the one that the jumps give.
    fn match_pointers(&mut self, step: usize) {
        let last = self.words.len().saturating_sub(1) as u32;
        let count = self.first.len().div_ceil(step);
        self.pointers.resize(count, last.to_le_bytes().to_vec());
    }
}

/// The bytes of an entry of each part.
fn sizes(kind: u32, width: u32) -> (usize, usize) {
    match kind {
        1 => (8, 1),
        2 => (4, 1),
        3 | 4 | 6 => (4, width as usize),
        _ => (8, 8),
    }
}

/// An entry like one that is there, or 0.
fn any_entry(entries: &[Vec<u8>], size: usize, random: &mut Random) -> Vec<u8> {
    if entries.is_empty() || random.once_in(4) {
        return vec![0; size];
    }
    let mut entry = entries[random.below(entries.len())].clone();
    if random.once_in(2) {
        let at = random.below(entry.len());
        entry[at] = entry[at].wrapping_add(random.within(1, 3) as u8);
    }
    entry
}

/// Adds an entry anywhere.
fn add(entries: &mut Vec<Vec<u8>>, size: usize, random: &mut Random) {
    let entry = any_entry(entries, size, random);
    entries.insert(random.below(entries.len() + 1), entry);
}

/// Removes an entry, if there is one.
fn remove(entries: &mut Vec<Vec<u8>>, random: &mut Random) {
    if !entries.is_empty() {
        entries.remove(random.below(entries.len()));
    }
}

/// A file with more or fewer entries or words, whose counts, offsets and length agree with each other.
pub fn any(file: &[u8], says: &Parsed, random: &mut Random) -> Forged {
    let mut parts = Parts::of(file, says);
    let kind = says.setting.kind;
    let (first_size, second_size) = sizes(kind, says.setting.width);
    let choice = random.below(AGREEING.len());
    match choice {
        0 => add(&mut parts.first, first_size, random),
        1 => remove(&mut parts.first, random),
        2 if kind >= 3 => add(&mut parts.second, second_size, random),
        3 => remove(&mut parts.second, random),
        4 => add(&mut parts.words, 4, random),
        5 => remove(&mut parts.words, random),
        6 => {
            let setting = settings::any(random);
            for (at, number) in [0, 2, 3].into_iter().zip(setting) {
                parts.header[at] = number as u8;
            }
            return other_setting(parts, setting, random);
        }
        _ => {
            parts.first.clear();
            if kind == 5 {
                parts.second.clear();
            }
        }
    }
    // Where the layout fixes a count, mostly let it agree too, so that the parts are looked at.
    if !random.once_in(4) {
        parts.match_counts(&says.setting);
    }
    (
        format!("agreeing counts: {}", AGREEING[choice]),
        parts.file(),
    )
}

/// The same words under another setting, with parts of zeros, of what stood there, or of rising numbers.
fn other_setting(mut parts: Parts, setting: Setting, random: &mut Random) -> Forged {
    let [kind, width, step] = setting;
    let stored = parts.words.len();
    let (first_size, second_size) = sizes(kind, width);
    let free = random.below(stored + 1);
    let (first, second) = match kind {
        1 => (free, 0),
        2 => (stored, 0),
        3 => (stored.div_ceil(step as usize), stored),
        4 | 6 => (free, stored),
        _ => (0, free),
    };
    let rising = random.once_in(2);
    let entries = |count: usize, size: usize| -> Vec<Vec<u8>> {
        (0..count)
            .map(|index| {
                let mut entry = vec![0; size];
                entry[0] = if rising { index as u8 } else { 0 };
                entry
            })
            .collect()
    };
    parts.first = entries(first, first_size);
    parts.second = entries(second, second_size);
    parts.pointers.clear();
    match kind {
        5 => parts.match_levels(step as usize),
        6 => parts.match_pointers(step as usize),
        _ => {}
    }
    ("agreeing counts: another setting".to_string(), parts.file())
}
