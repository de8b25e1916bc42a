//! One call on both sides.

use radar_archive::{calls, Position};
use reader::Parsed;

use crate::random::Random;
use crate::settings::{self, Setting};
use crate::tally::Tally;

/// Elements before and after a destination that no call may change.
const GUARD: usize = 16;

/// A result that fills a destination, or the number that refuses it whatever the destination is.
pub type Wanted<T> = Result<Vec<T>, u32>;

/// An element of a destination.
pub trait Element: Copy + PartialEq + std::fmt::Debug {
    /// Any element.
    fn any(random: &mut Random) -> Self;
}

impl Element for u8 {
    fn any(random: &mut Random) -> u8 {
        random.word() as u8
    }
}

impl Element for u32 {
    fn any(random: &mut Random) -> u32 {
        random.word()
    }
}

/// Both sides, and what was met.
#[derive(Debug)]
pub struct Sides {
    /// Where arguments and destinations come from.
    pub random: Random,
    /// What was met.
    pub tally: Tally,
}

/// Kind, width, step, dimension count, cells, E, N and the extents of a file that the reader accepts.
fn header_numbers(says: &Parsed) -> [u32; 11] {
    let (setting, picture) = (says.setting, &says.picture);
    let [first, second, third, fourth] = picture.dims.extents;
    [
        setting.kind,
        setting.width,
        setting.step,
        picture.dims.count,
        picture.words.len() as u32,
        picture.empty,
        says.positions.len() as u32,
        first,
        second,
        third,
        fourth,
    ]
}

/// The number of an engine's answer.
pub(crate) fn number<T>(answer: &Result<T, radar_archive::Refusal>) -> u32 {
    match answer {
        Ok(_) => 0,
        Err(refusal) => refusal.number(),
    }
}

/// The reader's answer with its number.
pub(crate) fn read<T>(answer: Result<T, reader::Refusal>) -> Result<T, u32> {
    answer.map_err(|refusal| refusal.number())
}

/// The engine's answer with its number.
pub(crate) fn told<T>(answer: Result<T, radar_archive::Refusal>) -> Result<T, u32> {
    answer.map_err(|refusal| refusal.number())
}

/// What the reader says of a file.
pub fn parsed(file: &[u8]) -> Result<Parsed, u32> {
    read(reader::check(file))
}

/// Bytes for a message, cut if they are many.
pub(crate) fn shown(file: &[u8]) -> String {
    format!("{} bytes {:?}", file.len(), &file[..file.len().min(400)])
}

/// Ends the case with a message where the engine's answer is not the reader's.
pub(crate) fn agree<T: PartialEq + std::fmt::Debug>(
    call: &str,
    engine: &T,
    wanted: &T,
    what: impl Fn() -> String,
) {
    assert!(
        engine == wanted,
        "{call}: the engine says {engine:?}, the reader {wanted:?}; {}",
        what()
    );
}

impl Sides {
    /// Both sides from a seed.
    pub fn new(seed: u64) -> Sides {
        Sides {
            random: Random::new(seed),
            tally: Tally::default(),
        }
    }

    /// Compares one answer and counts it.
    pub(crate) fn same<T: PartialEq + std::fmt::Debug>(
        &mut self,
        call: &'static str,
        engine: Result<T, u32>,
        wanted: Result<T, u32>,
        what: impl Fn() -> String,
    ) {
        agree(call, &engine, &wanted, what);
        let number = engine.err().unwrap_or(0);
        self.tally.answer(call, number);
    }

    /// Makes a call with destinations of some lengths: none, one too short, exact, larger. `engine` gives the number.
    pub(crate) fn put_out<T: Element>(
        &mut self,
        call: &'static str,
        wanted: &Wanted<T>,
        engine: impl Fn(&mut [T]) -> u32,
        what: impl Fn() -> String,
    ) {
        let length = wanted.as_ref().map_or(0, Vec::len);
        let more = self.random.within(1, 40);
        let mut rooms = vec![length + more];
        if wanted.is_ok() {
            rooms.push(length);
            rooms.extend(length.checked_sub(1));
        }
        if self.random.once_in(8) {
            rooms.push(0);
        }
        for room in rooms {
            self.put_out_in(call, wanted, room, &engine, &what);
        }
    }

    /// Makes a call with a destination of one length, and gives the final contents of the destination.
    pub fn put_out_in<T: Element>(
        &mut self,
        call: &'static str,
        wanted: &Wanted<T>,
        room: usize,
        engine: impl Fn(&mut [T]) -> u32,
        what: impl Fn() -> String,
    ) -> Vec<T> {
        let before: Vec<T> = (0..GUARD + room + GUARD)
            .map(|_| T::any(&mut self.random))
            .collect();
        let mut lent = before.clone();
        let number = engine(&mut lent[GUARD..GUARD + room]);
        let mut after = before;
        let wanted_number = match wanted {
            Ok(result) if result.len() > room => 10,
            Ok(result) => {
                after[GUARD..GUARD + result.len()].copy_from_slice(result);
                0
            }
            Err(number) => *number,
        };
        assert!(
            number == wanted_number,
            "{call}: the engine says {number}, the reader {wanted_number}, destination of {room}; {}",
            what()
        );
        if lent != after {
            let at = lent.iter().zip(&after).position(|(one, two)| one != two);
            panic!("{call}: {number}, but the destination of {room} with {GUARD} guards around it differs at {at:?}; {}", what());
        }
        self.tally.answer(call, number);
        lent.truncate(GUARD + room);
        lent.split_off(GUARD)
    }

    /// Make, with destinations of several lengths. Gives the file if there is one.
    pub fn make(
        &mut self,
        setting: Setting,
        dimensions: u32,
        extents: &[u32],
        empty: u32,
        words: &[u32],
    ) -> Option<Vec<u8>> {
        let made = reader::make(
            settings::reader(setting),
            dimensions,
            extents,
            empty,
            words,
            usize::MAX,
        );
        let wanted = read(made);
        let engine = |dst: &mut [u8]| {
            let made = calls::make(setting, dimensions, extents, empty, words, dst);
            if let (Ok(length), Ok(file)) = (&made, &wanted) {
                assert_eq!(*length, file.len(), "make: the length of the file put out");
            }
            number(&made)
        };
        self.put_out("make", &wanted, engine, || {
            let some = &words[..words.len().min(100)];
            format!(
                "{setting:?} {dimensions} {extents:?} E {empty} {} words {some:?}",
                words.len()
            )
        });
        if wanted.is_ok() {
            self.tally.setting(setting);
        }
        wanted.ok()
    }

    /// Check. Gives what the reader says.
    pub fn check(&mut self, file: &[u8]) -> Result<Parsed, u32> {
        let parsed = parsed(file);
        let wanted = parsed.as_ref().map(|_| ()).map_err(|&number| number);
        self.same("check", told(calls::check(file)), wanted, || shown(file));
        parsed
    }

    /// Write, with destinations of several lengths. Gives the file if there is one.
    pub fn write(&mut self, file: &[u8], position: u32, word: u32) -> Option<Vec<u8>> {
        let wanted = read(reader::write(
            file,
            reader::Position(position),
            word,
            usize::MAX,
        ));
        let engine = |dst: &mut [u8]| number(&calls::write(file, Position(position), word, dst));
        self.put_out("write", &wanted, engine, || {
            format!("{word} at {position} of {}", shown(file))
        });
        wanted.ok()
    }

    /// Change, with destinations of several lengths. Gives the file if there is one.
    pub fn change(&mut self, file: &[u8], setting: Setting) -> Option<Vec<u8>> {
        let wanted = read(reader::change(file, settings::reader(setting), usize::MAX));
        let engine = |dst: &mut [u8]| number(&calls::change(file, setting, dst));
        self.put_out("change", &wanted, engine, || {
            format!("to {setting:?} of {}", shown(file))
        });
        wanted.ok()
    }

    /// What the header says, with destinations of several lengths.
    pub fn info(&mut self, file: &[u8], parsed: &Result<Parsed, u32>) {
        let wanted = parsed
            .as_ref()
            .map(|says| header_numbers(says).to_vec())
            .map_err(|&number| number);
        self.put_out(
            "info",
            &wanted,
            |dst: &mut [u32]| number(&calls::info(file, dst)),
            || shown(file),
        );
    }

    /// Expand, with destinations of several lengths.
    pub fn expand(&mut self, file: &[u8], parsed: &Result<Parsed, u32>) {
        let wanted = parsed
            .as_ref()
            .map(|says| says.picture.words.clone())
            .map_err(|&number| number);
        self.put_out(
            "expand",
            &wanted,
            |dst: &mut [u32]| number(&calls::expand(file, dst)),
            || shown(file),
        );
    }
}
