//! What a run has met.

use std::collections::{BTreeMap, BTreeSet};
use std::fmt::Write;

use crate::settings::{self, Setting};

/// The code that stands for "empty".
pub const EMPTY: u32 = 255;

/// Every call with the numbers it may give; 0 is accepted.
const CALLS: [(&str, &[u32]); 20] = [
    ("check", &[0, 1, 2, 3, 4, 5, 6]),
    ("info", &[0, 1, 2, 3, 4, 5, 6, 10]),
    ("make", &[0, 2, 3, 4, 7, 9, 10]),
    ("write", &[0, 1, 2, 3, 4, 5, 6, 8, 9, 10]),
    ("change", &[0, 1, 2, 3, 4, 5, 6, 9, 10]),
    ("expand", &[0, 1, 2, 3, 4, 5, 6, 10]),
    ("cell", &[0, 1, 2, 3, 4, 5, 6, 8]),
    ("rank", &[0, 1, 2, 3, 4, 5, 6, 8, EMPTY]),
    ("position", &[0, 1, 2, 3, 4, 5, 6, 8]),
    ("coordinates_position", &[0, 4, 8]),
    ("position_coordinates", &[0, 4, 8, 10]),
    ("box", &[0, 1, 2, 3, 4, 5, 6, 8, 10]),
    ("ranks", &[0, 1, 2, 3, 4, 5, 6, 8]),
    ("shorter", &[0, 1, 2, 3, 4, 5, 6, 11]),
    ("opened_cell", &[0, 8]),
    ("opened_rank", &[0, 8, EMPTY]),
    ("opened_position", &[0, 8]),
    ("count", &[0, 8]),
    ("write in a list", &[0, 8, 9, 10]),
    ("change in a list", &[0, 2, 3, 9, 10]),
];

/// Where an empty cell lies, which says whether the number of stored cells before it is 0, N, both or neither.
const EMPTY_CELLS: [&str; 4] = [
    "before the first",
    "between",
    "after the last",
    "none stored",
];

/// How often each number of each call has to be met, and each place of an empty cell.
pub const LEAST: u64 = 20;

/// Counts of what a run has met.
#[derive(Clone, Debug, Default)]
pub struct Tally {
    /// For each call and number, the cases.
    answers: BTreeMap<(&'static str, u32), u64>,
    /// For each rank lookup and place of an empty cell in an accepted file, the cells.
    empty_cells: BTreeMap<(&'static str, &'static str), u64>,
    /// For each place of a file, the damaged or forged files.
    damage: BTreeMap<String, u64>,
    /// For each texture, the pictures.
    textures: BTreeMap<&'static str, u64>,
    /// The settings of files made.
    settings: BTreeSet<Setting>,
    /// The steps of the lists, and the lists.
    pub steps: u64,
    /// The lists.
    pub lists: u64,
}

impl Tally {
    /// Counts a call's number.
    pub fn answer(&mut self, call: &'static str, number: u32) {
        *self.answers.entry((call, number)).or_default() += 1;
    }

    /// Counts an empty cell of an accepted file by the stored cells before it and in all.
    pub fn empty_cell(&mut self, call: &'static str, before: u32, stored: u32) {
        let place = match (before == 0, before == stored) {
            (true, false) => 0,
            (false, false) => 1,
            (false, true) => 2,
            (true, true) => 3,
        };
        let key = (call, EMPTY_CELLS[place]);
        *self.empty_cells.entry(key).or_default() += 1;
    }

    /// Counts a damaged file.
    pub fn damaged(&mut self, place: &str) {
        match self.damage.get_mut(place) {
            Some(count) => *count += 1,
            None => {
                self.damage.insert(place.to_string(), 1);
            }
        }
    }

    /// Counts a picture.
    pub fn texture(&mut self, name: &'static str) {
        *self.textures.entry(name).or_default() += 1;
    }

    /// Notes the setting of a file made.
    pub fn setting(&mut self, setting: Setting) {
        self.settings.insert(setting);
    }

    /// The cases: calls made on both sides.
    pub fn cases(&self) -> u64 {
        self.answers.values().sum()
    }

    /// Adds what another run has met.
    pub fn add(&mut self, other: &Tally) {
        for (&key, &count) in &other.answers {
            *self.answers.entry(key).or_default() += count;
        }
        for (&key, &count) in &other.empty_cells {
            *self.empty_cells.entry(key).or_default() += count;
        }
        for (key, &count) in &other.damage {
            *self.damage.entry(key.clone()).or_default() += count;
        }
        for (&key, &count) in &other.textures {
            *self.textures.entry(key).or_default() += count;
        }
        self.settings.extend(&other.settings);
        self.steps += other.steps;
        self.lists += other.lists;
    }

    /// How often a number was met, over all calls.
    pub fn number(&self, number: u32) -> u64 {
        let met = self.answers.iter().filter(|((_, met), _)| *met == number);
        met.map(|(_, count)| count).sum()
    }

    /// The answers that have to be met and were not, or not often enough, and those that may never be.
    fn missing_answers(&self) -> Vec<String> {
        let mut missing = Vec::new();
        for (call, numbers) in CALLS {
            for &number in numbers {
                let met = self.answers.get(&(call, number)).copied().unwrap_or(0);
                if met < LEAST {
                    missing.push(format!("{call} gave {number} only {met} times"));
                }
            }
        }
        for &(call, number) in self.answers.keys() {
            if !CALLS
                .iter()
                .any(|(name, numbers)| *name == call && numbers.contains(&number))
            {
                missing.push(format!("{call} gave {number}, which it never may"));
            }
        }
        for call in ["rank", "opened_rank"] {
            for place in EMPTY_CELLS {
                let met = self.empty_cells.get(&(call, place)).copied().unwrap_or(0);
                if met < LEAST {
                    missing.push(format!(
                        "{call} met an empty cell, {place}, only {met} times"
                    ));
                }
            }
        }
        missing
    }

    /// What has to be met and was not, or not often enough.
    pub fn missing(&self) -> Vec<String> {
        let mut missing = self.missing_answers();
        for place in crate::forge::places() {
            if !self.damage.contains_key(&place) {
                missing.push(format!("no file was damaged at {place}"));
            }
        }
        for &name in crate::textures::NAMES {
            if !self.textures.contains_key(name) {
                missing.push(format!("no picture of texture {name}"));
            }
        }
        let all = settings::all();
        let unmet = all
            .iter()
            .filter(|setting| !self.settings.contains(*setting));
        let unmet: Vec<&Setting> = unmet.collect();
        if !unmet.is_empty() {
            missing.push(format!("no file of settings {unmet:?}"));
        }
        missing
    }

    /// The counts as text.
    pub fn text(&self) -> String {
        let mut text = self.table();
        // Writing to a string can't fail.
        let _ = writeln!(
            text,
            "empty cells by the stored ones: {:?}",
            self.empty_cells
        );
        let _ = writeln!(
            text,
            "settings made: {} of {}",
            self.settings.len(),
            settings::all().len()
        );
        let pictures: u64 = self.textures.values().sum();
        let _ = writeln!(text, "pictures: {pictures}; textures: {:?}", self.textures);
        let files: u64 = self.damage.values().sum();
        let least = self.damage.values().min().copied().unwrap_or(0);
        let places = self.damage.len();
        let _ = writeln!(
            text,
            "damaged and forged files: {files} at {places} places, each at least {least} times"
        );
        let _ = writeln!(text, "lists: {}, steps: {}", self.lists, self.steps);
        let _ = writeln!(text, "cases: {}", self.cases());
        text
    }

    /// How often each call gave each number, and all calls together.
    fn table(&self) -> String {
        let mut text = String::new();
        // Writing to a string can't fail.
        let _ = write!(text, "{:22}", "call");
        let columns: Vec<u32> = (0..=11).chain([EMPTY]).collect();
        for number in &columns {
            let name = if *number == EMPTY {
                "empty".to_string()
            } else {
                number.to_string()
            };
            let _ = write!(text, "{name:>9}");
        }
        text.push('\n');
        for (call, _) in CALLS {
            let _ = write!(text, "{call:22}");
            for &number in &columns {
                let met = self.answers.get(&(call, number)).copied().unwrap_or(0);
                let _ = write!(text, "{met:>9}");
            }
            text.push('\n');
        }
        let _ = write!(text, "{:22}", "all");
        for &number in &columns {
            let _ = write!(text, "{:>9}", self.number(number));
        }
        text.push('\n');
        text
    }
}
