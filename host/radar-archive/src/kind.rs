//! The header kinds.

use alloc::string::String;
use core::error::Error;
use core::fmt;
use core::ops::RangeInclusive;
use core::str::FromStr;

/// A header kind: how a file says where its stored cells stand.
///
/// ```
/// use radar_archive::Kind;
///
/// assert_eq!(Kind::BaseOffset.number(), 3);
/// assert_eq!(Kind::BaseOffset.to_string(), "base-offset");
/// assert_eq!("base-offset".parse(), Ok(Kind::BaseOffset));
/// assert_eq!(Kind::of_number(3), Some(Kind::BaseOffset));
/// ```
#[derive(Clone, Copy, Debug, PartialEq, Eq, Hash, PartialOrd, Ord)]
#[repr(u32)]
pub enum Kind {
    /// Kind 1, runs: short where stored cells stand together.
    Runs = 1,
    /// Kind 2, positions: each lookup is one binary search.
    Positions = 2,
    /// Kind 3, base and offset.
    BaseOffset = 3,
    /// Kind 4, jumps: a lookup is one pass along the file.
    Jumps = 4,
    /// Kind 5, paged runs.
    PagedRuns = 5,
    /// Kind 6, pointed jumps: kind 4 with the ranks of jumps, so that a lookup begins at one of them.
    PointedJumps = 6,
}

impl Kind {
    /// All kinds in rising order of their numbers.
    pub const ALL: [Kind; 6] = [
        Kind::Runs,
        Kind::Positions,
        Kind::BaseOffset,
        Kind::Jumps,
        Kind::PagedRuns,
        Kind::PointedJumps,
    ];

    /// The kind's number, 1 to 6, as the header has it.
    pub fn number(self) -> u32 {
        self as u32
    }

    /// The kind of a number.
    ///
    /// ```
    /// # use radar_archive::Kind;
    /// assert_eq!(Kind::of_number(5), Some(Kind::PagedRuns));
    /// assert_eq!(Kind::of_number(0), None);
    /// assert_eq!(Kind::of_number(7), None);
    /// ```
    pub fn of_number(number: u32) -> Option<Kind> {
        Kind::ALL.into_iter().find(|kind| kind.number() == number)
    }

    /// The kind's name, as the command `radar-archive` takes it.
    pub fn name(self) -> &'static str {
        match self {
            Kind::Runs => "runs",
            Kind::Positions => "positions",
            Kind::BaseOffset => "base-offset",
            Kind::Jumps => "jumps",
            Kind::PagedRuns => "paged-runs",
            Kind::PointedJumps => "pointed-jumps",
        }
    }

    /// All kinds with their numbers, for a message.
    ///
    /// ```
    /// # use radar_archive::Kind;
    /// assert_eq!(Kind::listed(), "1 runs, 2 positions, 3 base-offset, 4 jumps, 5 paged-runs, 6 pointed-jumps");
    /// ```
    pub fn listed() -> String {
        let texts = Kind::ALL.map(|kind| alloc::format!("{} {kind}", kind.number()));
        texts.join(", ")
    }

    /// The widths that the kind allows.
    pub fn widths(self) -> RangeInclusive<u32> {
        match self {
            Kind::BaseOffset | Kind::Jumps | Kind::PointedJumps => 1..=2,
            Kind::Runs | Kind::Positions | Kind::PagedRuns => 0..=0,
        }
    }

    /// The steps that the kind allows.
    pub fn steps(self) -> RangeInclusive<u32> {
        match self {
            Kind::BaseOffset | Kind::PointedJumps => 1..=255,
            Kind::PagedRuns => 2..=64,
            Kind::Runs | Kind::Positions | Kind::Jumps => 0..=0,
        }
    }
}

impl fmt::Display for Kind {
    fn fmt(&self, f: &mut fmt::Formatter<'_>) -> fmt::Result {
        f.pad(self.name())
    }
}

impl FromStr for Kind {
    type Err = UnknownKind;

    /// The kind of a name.
    fn from_str(name: &str) -> Result<Kind, UnknownKind> {
        let found = Kind::ALL.into_iter().find(|kind| kind.name() == name);
        found.ok_or(UnknownKind)
    }
}

/// No kind has the name.
///
/// ```
/// # use radar_archive::Kind;
/// let unknown = "run".parse::<Kind>().unwrap_err();
/// assert_eq!(
///     unknown.to_string(),
///     "no kind has this name; the kinds are 1 runs, 2 positions, 3 base-offset, 4 jumps, 5 paged-runs, 6 pointed-jumps"
/// );
/// ```
#[derive(Clone, Copy, Debug, PartialEq, Eq)]
pub struct UnknownKind;

impl fmt::Display for UnknownKind {
    fn fmt(&self, f: &mut fmt::Formatter<'_>) -> fmt::Result {
        write!(f, "no kind has this name; the kinds are {}", Kind::listed())
    }
}

impl Error for UnknownKind {}
