//! The calls that look something up, on both sides.

use radar_archive::{calls, Archive, Position, Rank, Ranked};
use reader::Parsed;

use crate::forge::field;
use crate::sides::{agree, number, read, shown, told, Sides};
use crate::tally::EMPTY;

impl Sides {
    /// Cell at a position.
    pub fn cell(&mut self, file: &[u8], parsed: &Result<Parsed, u32>, position: u32) {
        let wanted = parsed.as_ref().map_err(|&number| number);
        let wanted = wanted.and_then(|says| read(says.cell(reader::Position(position))));
        let engine = told(calls::cell(file, Position(position)));
        self.same("cell", engine, wanted, || {
            format!("at {position} of {}", shown(file))
        });
    }

    /// Rank at a position, or the stored cells before an empty cell.
    pub fn rank(&mut self, file: &[u8], parsed: &Result<Parsed, u32>, position: u32) {
        let engine = told(calls::rank(file, Position(position)));
        let parsed = parsed.as_ref().map_err(|&number| number);
        self.same_rank("rank", engine, parsed, position, || {
            format!("at {position} of {}", shown(file))
        });
    }

    /// Compares one answer of the rank lookup, the number that comes with "empty" too, and counts it.
    fn same_rank(
        &mut self,
        call: &'static str,
        engine: Result<Ranked, u32>,
        parsed: Result<&Parsed, u32>,
        position: u32,
        what: impl Fn() -> String,
    ) {
        let wanted = parsed.and_then(|says| ranked(says, position));
        agree(call, &engine, &wanted, what);
        self.tally.answer(call, code(&engine));
        if let (Ok(Ranked::Empty(before)), Ok(says)) = (engine, parsed) {
            self.tally.empty_cell(call, before, says.stored() as u32);
        }
    }

    /// Position of a rank.
    pub fn position(&mut self, file: &[u8], parsed: &Result<Parsed, u32>, rank: u32) {
        let wanted = parsed.as_ref().map_err(|&number| number);
        let wanted = wanted
            .and_then(|says| read(says.position(reader::Rank(rank))))
            .map(|p| p.0);
        let engine = told(calls::position(file, Rank(rank))).map(|p| p.0);
        self.same("position", engine, wanted, || {
            format!("of rank {rank} of {}", shown(file))
        });
    }

    /// The three lookups of an opened file that is accepted.
    pub fn opened(&mut self, file: &[u8], says: &Parsed, position: u32, rank: u32) {
        let what = || format!("position {position}, rank {rank} of {}", shown(file));
        let engine = told(calls::opened_cell(file, Position(position)));
        self.same(
            "opened_cell",
            engine,
            read(says.cell(reader::Position(position))),
            what,
        );
        let engine = told(calls::opened_rank(file, Position(position)));
        self.same_rank("opened_rank", engine, Ok(says), position, what);
        let engine = told(calls::opened_position(file, Rank(rank))).map(|p| p.0);
        let wanted = read(says.position(reader::Rank(rank))).map(|p| p.0);
        self.same("opened_position", engine, wanted, what);
    }

    /// The three lookups over bytes that are refused: each ends with an answer in range. The number that comes with "empty" is free.
    pub fn opened_over_any(&mut self, file: &[u8], position: u32, rank: u32) {
        let what = || format!("position {position}, rank {rank} of {}", shown(file));
        let (stored, cells) = claimed(file);
        let answer = told(calls::opened_cell(file, Position(position)));
        let right = matches!(answer, Err(8)) || answer.is_ok() && file.len() >= 52;
        assert!(right, "opened_cell: {answer:?}; {}", what());
        self.tally.answer("opened_cell", answer.err().unwrap_or(0));
        let answer = told(calls::opened_rank(file, Position(position)));
        let right = match answer {
            Ok(Ranked::Stored(Rank(rank))) => rank < stored,
            Ok(Ranked::Empty(_)) => file.len() >= 52,
            Err(number) => number == 8,
        };
        assert!(right, "opened_rank: {answer:?}; {}", what());
        self.tally.answer("opened_rank", code(&answer));
        let answer = told(calls::opened_position(file, Rank(rank))).map(|p| p.0);
        let right = match answer {
            Ok(position) => u128::from(position) < cells,
            Err(number) => number == 8,
        };
        assert!(right, "opened_position: {answer:?}; {}", what());
        self.tally
            .answer("opened_position", answer.err().unwrap_or(0));
    }

    /// The stored cells from one position to another of an opened file that is accepted.
    pub fn count(&mut self, archive: &Archive<&[u8]>, says: &Parsed, from: u32, to: u32) {
        let engine = told(archive.count(Position(from), Position(to)));
        self.same("count", engine, counted(says, from, to), || {
            format!("{from} to {to} of {}", shown(archive.bytes()))
        });
    }

    /// Box, with destinations of several lengths.
    pub fn box_words(
        &mut self,
        file: &[u8],
        parsed: &Result<Parsed, u32>,
        low: &[u32],
        high: &[u32],
    ) {
        let wanted = parsed.as_ref().map_err(|&number| number);
        let wanted = wanted.and_then(|says| read(says.box_words(low, high)));
        let engine = |dst: &mut [u32]| number(&calls::box_words(file, low, high, dst));
        self.put_out("box", &wanted, engine, || {
            format!("{low:?} to {high:?} of {}", shown(file))
        });
    }

    /// The stored bytes of a range of ranks.
    pub fn ranks(&mut self, file: &[u8], parsed: &Result<Parsed, u32>, from: u32, to: u32) {
        let wanted = parsed.as_ref().map_err(|&number| number);
        let wanted =
            wanted.and_then(|says| read(says.rank_range(reader::Rank(from), reader::Rank(to))));
        let part = told(calls::ranks(file, Rank(from), Rank(to)));
        let engine = part.map(|part| (part.as_ptr() as usize - file.as_ptr() as usize, part.len()));
        self.same("ranks", engine, wanted, || {
            format!("{from} to {to} of {}", shown(file))
        });
    }

    /// The shorter of two files, which do not overlap.
    pub fn shorter(&mut self, first: &[u8], second: &[u8]) {
        let wanted = read(reader::shorter(first, second))
            .map(|which| [first, second][which as usize].as_ptr());
        let engine = told(calls::shorter(first, second)).map(|file| file.as_ptr());
        self.same("shorter", engine, wanted, || {
            format!("{} and {}", shown(first), shown(second))
        });
    }

    /// Coordinates to position.
    pub fn coordinates_position(&mut self, dimensions: u32, extents: &[u32], at: &[u32]) {
        let wanted = read(reader::coordinates_position(dimensions, extents, at)).map(|p| p.0);
        let engine = told(calls::coordinates_position(dimensions, extents, at)).map(|p| p.0);
        let what = || format!("{dimensions} {extents:?} at {at:?}");
        self.same("coordinates_position", engine, wanted, what);
    }

    /// Position to coordinates, with destinations of several lengths.
    pub fn position_coordinates(&mut self, dimensions: u32, extents: &[u32], position: u32) {
        let at = reader::Position(position);
        let wanted =
            read(reader::position_coordinates(dimensions, extents, at, 4)).map(|at| at.to_vec());
        let engine = |dst: &mut [u32]| {
            number(&calls::position_coordinates(
                dimensions,
                extents,
                Position(position),
                dst,
            ))
        };
        let what = || format!("{dimensions} {extents:?} of {position}");
        self.put_out("position_coordinates", &wanted, engine, what);
    }
}

/// The N and the cells that the header of any bytes claims.
fn claimed(file: &[u8]) -> (u32, u128) {
    if file.len() < 52 {
        return (0, 0);
    }
    let extents = [4, 8, 12, 16].map(|at| u128::from(field(file, at)));
    (field(file, 24), extents.iter().product())
}

/// The reader's rank, or the stored cells before an empty cell.
fn ranked(says: &Parsed, position: u32) -> Result<Ranked, u32> {
    let found = read(says.rank(reader::Position(position)))?;
    Ok(match found {
        reader::Ranked::Stored(rank) => Ranked::Stored(Rank(rank.0)),
        reader::Ranked::Empty(before) => Ranked::Empty(before),
    })
}

/// The number of an answer of the rank lookup, for an empty cell its code.
fn code(answer: &Result<Ranked, u32>) -> u32 {
    match *answer {
        Ok(Ranked::Stored(_)) => 0,
        Ok(Ranked::Empty(_)) => EMPTY,
        Err(number) => number,
    }
}

/// The words from one position to another that are not E, or 8.
fn counted(says: &Parsed, from: u32, to: u32) -> Result<u32, u32> {
    if to < from {
        return Err(8);
    }
    let words = says.picture.words.get(from as usize..=to as usize);
    let stored = words
        .ok_or(8u32)?
        .iter()
        .filter(|&&word| word != says.picture.empty);
    Ok(stored.count() as u32)
}
