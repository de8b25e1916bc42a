//! The field of the header that is wrong, where the rest of the file tells.

use alloc::format;
use alloc::vec::Vec;

use super::header::{extent_at, Header};
use super::{first_finding, pointed_jumps, range, Finding};
use crate::header::HEADER_LENGTH;
use crate::layout::entry_sizes;
use crate::{Kind, Setting};

/// A field of the header: its offset, its name, what it says, and the file's header with another value in it.
struct Suspect {
    byte: usize,
    name: &'static str,
    says: u64,
    mended: Vec<(u64, Header)>,
}

/// The finding of the one field with which, another value in it, the file would be accepted. Nothing where no field or several are such.
pub(super) fn alone(file: &[u8], header: &Header) -> Option<Finding> {
    let mut found = suspects(file, header)
        .into_iter()
        .filter_map(|mut suspect| {
            let accepted = |(value, mended): &(u64, Header)| {
                *value != suspect.says && first_finding(file, mended).is_none()
            };
            suspect.mended.retain(accepted);
            (!suspect.mended.is_empty()).then_some(suspect)
        });
    match (found.next(), found.next()) {
        (Some(suspect), None) => Some(suspect.finding()),
        _ => None,
    }
}

impl Suspect {
    /// What is told of the field.
    fn finding(&self) -> Finding {
        let values = self.mended.iter().map(|&(value, _)| value);
        let low = values.clone().min().unwrap_or(self.says);
        let high = values.max().unwrap_or(self.says);
        let (name, says, values) = (self.name, self.says, range(low, high));
        Finding {
            message: format!("the {name} is {says}; the rest of the file agrees with {values}"),
            byte: Some(self.byte),
        }
    }
}

/// The fields whose value the rest of the file can tell, but the offsets and the length, which the tests of number 5 tell.
fn suspects(file: &[u8], header: &Header) -> [Suspect; 7] {
    [
        kind(header),
        dimension_count(header),
        extent_past_the_count(header),
        width(header),
        step(file, header),
        stored(header),
        runs_or_jumps(header),
    ]
}

/// The kind, which could be any other.
fn kind(header: &Header) -> Suspect {
    let of = |kind: Kind| {
        let setting = Setting {
            kind,
            ..header.setting
        };
        (
            kind.number().into(),
            with(header, |mended| mended.setting = setting),
        )
    };
    Suspect {
        byte: 0,
        name: "kind",
        says: header.setting.kind.number().into(),
        mended: Kind::ALL.map(of).into(),
    }
}

/// The dimension count, which reaches at least as far as extents that are not 1.
fn dimension_count(header: &Header) -> Suspect {
    let last = header.extents.iter().rposition(|&extent| extent != 1);
    let least = last.map_or(1, |index| index + 1);
    let mended = with(header, |mended| mended.dimensions = least);
    Suspect {
        byte: 1,
        name: "dimension count",
        says: header.dimensions as u64,
        mended: [(least as u64, mended)].into(),
    }
}

/// The first extent past the dimension count that is not 1.
fn extent_past_the_count(header: &Header) -> Suspect {
    let past = (header.dimensions..4).find(|&index| header.extents[index] != 1);
    let index = past.unwrap_or(3);
    let mended = with(header, |mended| mended.extents[index] = 1);
    Suspect {
        byte: extent_at(index),
        name: "extent past the dimension count",
        says: header.extents[index],
        mended: past.map(|_| (1, mended)).into_iter().collect(),
    }
}

/// The width, which could be any other that the kind allows.
fn width(header: &Header) -> Suspect {
    let of = |width: u32| {
        (
            width.into(),
            with(header, |mended| mended.setting.width = width),
        )
    };
    Suspect {
        byte: 2,
        name: "width",
        says: header.setting.width.into(),
        mended: header.setting.kind.widths().map(of).collect(),
    }
}

/// The step, which could be any other that the kind allows; in kind 6 the pointers tell which.
fn step(file: &[u8], header: &Header) -> Suspect {
    let kind = header.setting.kind;
    let steps: Vec<u32> = match kind {
        Kind::PointedJumps => pointed_jumps::steps(file, header),
        _ => kind.steps().collect(),
    };
    let of = |step: u32| {
        (
            step.into(),
            with(header, |mended| mended.setting.step = step),
        )
    };
    Suspect {
        byte: 3,
        name: "step",
        says: header.setting.step.into(),
        mended: steps.into_iter().map(of).collect(),
    }
}

/// The stored cells, which some kinds count as entries of a part, and for each of which there is a word.
fn stored(header: &Header) -> Suspect {
    let words = header.length.saturating_sub(header.words_at) / 4;
    let count = match header.setting.kind {
        Kind::Positions => header.first,
        Kind::BaseOffset | Kind::Jumps | Kind::PointedJumps => header.second,
        Kind::Runs | Kind::PagedRuns => words,
    };
    let mended = with(header, |mended| mended.stored = count);
    Suspect {
        byte: 24,
        name: "number of stored cells",
        says: header.stored,
        mended: [(count, mended)].into(),
    }
}

/// The runs of kinds 1 and 5 or the jumps of kinds 4 and 6, for each of which there is an entry before the next offset.
fn runs_or_jumps(header: &Header) -> Suspect {
    let [first_size, second_size] = entry_sizes(header.setting).map(|size| size as u64);
    let before_second = header.second_at.saturating_sub(HEADER_LENGTH as u64);
    let before_words = header.words_at.saturating_sub(header.second_at);
    let (byte, name, says, count) = match header.setting.kind {
        Kind::Runs => (
            28,
            "number of runs",
            header.first,
            before_second / first_size,
        ),
        Kind::PagedRuns => (
            32,
            "number of runs",
            header.second,
            before_words / second_size,
        ),
        _ => (
            28,
            "number of jumps",
            header.first,
            before_second / first_size,
        ),
    };
    let mended = with(header, |mended| match byte {
        28 => mended.first = count,
        _ => mended.second = count,
    });
    Suspect {
        byte,
        name,
        says,
        mended: [(count, mended)].into(),
    }
}

/// A copy of a header with a change.
fn with(header: &Header, change: impl FnOnce(&mut Header)) -> Header {
    let mut copy = header.clone();
    change(&mut copy);
    copy
}
