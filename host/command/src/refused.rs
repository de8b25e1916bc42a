//! Refusals in plain English of the values that were handed to a call.

use radar_archive::{Dimensions, Fault, Kind, Position, Refusal, Setting, MOST_CELLS};

use crate::json::Object;
use crate::{numbers, place};

/// Why a kind that was asked for by its number is refused with 2, and what to do.
pub fn kind(number: u32) -> String {
    let known = Kind::listed();
    format!("there is no kind {number}; use --kind with one of {known}")
}

/// Puts a refusal in an object: number, word, message and byte.
pub fn members(object: &mut Object, fault: &Fault) {
    object
        .number("number", fault.refusal.number().into())
        .text("word", fault.refusal.word())
        .text("message", &fault.message)
        .number_or_null("byte", fault.byte);
}

/// Why a setting that was asked for is refused with 3 or 9, and what to do.
///
/// ```
/// # use command::refused;
/// # use radar_archive::{Refusal, Setting};
/// assert_eq!(
///     refused::setting(Refusal::Unfit, Setting::base_offset(1, 255)),
///     "an offset does not fit width 1 at step 255; use --width 2 or a smaller --step"
/// );
/// ```
pub fn setting(refusal: Refusal, setting: Setting) -> String {
    match refusal {
        Refusal::Setting => disallowed(setting),
        _ => unfit(setting),
    }
}

/// Why the width or step of a kind is not allowed.
fn disallowed(setting: Setting) -> String {
    let Setting { kind, width, step } = setting;
    let wanted = match kind {
        Kind::Runs | Kind::Positions => "no --width and no --step",
        Kind::BaseOffset | Kind::PointedJumps => "--width 1 or 2 and --step 1 to 255",
        Kind::Jumps => "--width 1 or 2 and no --step",
        Kind::PagedRuns => "--step 2 to 64 and no --width",
    };
    let number = kind.number();
    format!("kind {number} {kind} does not go with width {width} and step {step}; use {wanted}")
}

/// Why a picture does not fit a setting of kind 3.
fn unfit(setting: Setting) -> String {
    let Setting { width, step, .. } = setting;
    let wider = if width == 1 { "--width 2 or " } else { "" };
    format!("an offset does not fit width {width} at step {step}; use {wider}a smaller --step")
}

/// Why extents handed to make are refused with 4.
pub fn extents(extents: &[u32]) -> String {
    let text = numbers::joined(extents, "x");
    if extents.len() > 4 {
        return format!(
            "--dims {text} has {} dimensions; a picture has 1 to 4",
            extents.len()
        );
    }
    if extents.contains(&0) {
        return format!("--dims {text} has an extent of 0; each extent is at least 1");
    }
    let most = numbers::grouped(MOST_CELLS.into());
    format!("--dims {text} is more than {most} cells, the most that a picture has")
}

/// Why a position is refused with 8, after the option that gave it.
pub fn position(position: u32, cells: u32) -> String {
    let last = cells.saturating_sub(1);
    format!("@{position} is outside the picture: its positions are 0 to {last}")
}

/// Why a rank is refused with 8.
pub fn rank(rank: u32, stored: u32) -> String {
    match stored.checked_sub(1) {
        Some(last) => {
            format!(
                "--rank {rank} is outside: the ranks of the {stored} stored cells are 0 to {last}"
            )
        }
        None => format!("--rank {rank} is outside: the picture has no stored cells"),
    }
}

/// The words for first to fourth.
const ORDINALS: [&str; 4] = ["first", "second", "third", "fourth"];

/// Why coordinates, as many as the picture has dimensions, are refused with 8, after the option that gave them.
pub fn coordinates(at: &[u32], dimensions: Dimensions) -> String {
    let text = numbers::joined(at, ",");
    let extents = dimensions.extents();
    let picture = numbers::joined(extents, "x");
    let outside = |(&at, &extent): (&u32, &u32)| at >= extent;
    match at.iter().zip(extents).position(outside) {
        Some(index) => {
            let last = extents[index].saturating_sub(1);
            let ordinal = ORDINALS[index];
            format!(
                "{text} is outside the picture {picture}: the {ordinal} coordinate is 0 to {last}"
            )
        }
        None => format!("{text} is outside the picture {picture}"),
    }
}

/// Why a box with both corners inside is refused with 8.
pub fn corners(low: &[u32], high: &[u32]) -> String {
    let above = low.iter().zip(high).position(|(low, high)| low > high);
    let Some(index) = above else {
        return "the box is outside the picture".to_string();
    };
    let (ordinal, low, high) = (ORDINALS[index], low[index], high[index]);
    format!(
        "the {ordinal} coordinate of --low is {low}, above that of --high, {high}; exchange them"
    )
}

/// Why a count with both ends inside is refused with 8.
///
/// ```
/// # use command::refused;
/// # use radar_archive::{Dimensions, Position, Refusal};
/// assert_eq!(
///     refused::ends(Position(6), Position(3), Dimensions::of(&[3, 4])?),
///     "--from 1,2 (@6) comes after --to 0,3 (@3) in row order; exchange them"
/// );
/// # Ok::<(), Refusal>(())
/// ```
pub fn ends(from: Position, to: Position, dimensions: Dimensions) -> String {
    let [from, to] = [from, to].map(|end| match place::written(end, dimensions) {
        at if dimensions.count() == 1 => at,
        at => format!("{at} (@{})", end.0),
    });
    format!("--from {from} comes after --to {to} in row order; exchange them")
}

/// Why a file is refused with 10.
pub fn small(length: usize, most: u32) -> String {
    format!("the file has {length} bytes, more than --max-length {most} allows; use --max-length {length} or more")
}
