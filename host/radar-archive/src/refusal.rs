//! The signal list.

use core::error::Error;
use core::fmt;

/// A refusal, with the number and the word of the signal list.
///
/// ```
/// use radar_archive::{calls, Refusal};
///
/// let refusal = calls::check(&[1, 2, 3]).unwrap_err();
/// assert_eq!(refusal, Refusal::Short);
/// assert_eq!((refusal.number(), refusal.word()), (1, "short"));
/// assert_eq!(refusal.to_string(), "1 short: the file is under 52 bytes");
/// ```
#[derive(Clone, Copy, Debug, PartialEq, Eq, Hash, PartialOrd, Ord)]
#[repr(u32)]
pub enum Refusal {
    /// The file is under 52 bytes.
    Short = 1,
    /// The kind is not 1 to 6.
    Kind = 2,
    /// Width or step is not allowed for the kind.
    Setting = 3,
    /// Dimension count, extent or product is outside the picture's rule, or an extent past the count is not 1.
    Extent = 4,
    /// A count, offset or length is not what the layout gives, or the bytes lent differ from the length.
    Counts = 5,
    /// None of 1 to 5, and no picture has these bytes.
    Body = 6,
    /// The words lent are not cells in number.
    Picture = 7,
    /// A position, rank, coordinate, box or rank range lies outside.
    Beyond = 8,
    /// The file to be put out is kind 3 and an offset does not fit its width.
    Unfit = 9,
    /// The destination is shorter than the result.
    Small = 10,
    /// Dimensions, empty word or words of two files differ.
    Other = 11,
}

impl Refusal {
    /// All refusals in rising order of their numbers.
    pub const ALL: [Refusal; 11] = [
        Refusal::Short,
        Refusal::Kind,
        Refusal::Setting,
        Refusal::Extent,
        Refusal::Counts,
        Refusal::Body,
        Refusal::Picture,
        Refusal::Beyond,
        Refusal::Unfit,
        Refusal::Small,
        Refusal::Other,
    ];

    /// The number of the signal list, 1 to 11.
    pub fn number(self) -> u32 {
        self as u32
    }

    /// The refusal of a number of the signal list.
    ///
    /// ```
    /// # use radar_archive::Refusal;
    /// assert_eq!(Refusal::of_number(9), Some(Refusal::Unfit));
    /// assert_eq!(Refusal::of_number(0), None);
    /// assert_eq!(Refusal::of_number(12), None);
    /// ```
    pub fn of_number(number: u32) -> Option<Refusal> {
        let index = usize::try_from(number.checked_sub(1)?).ok()?;
        Refusal::ALL.get(index).copied()
    }

    /// The word of the signal list.
    pub fn word(self) -> &'static str {
        match self {
            Refusal::Short => "short",
            Refusal::Kind => "kind",
            Refusal::Setting => "setting",
            Refusal::Extent => "extent",
            Refusal::Counts => "counts",
            Refusal::Body => "body",
            Refusal::Picture => "picture",
            Refusal::Beyond => "beyond",
            Refusal::Unfit => "unfit",
            Refusal::Small => "small",
            Refusal::Other => "other",
        }
    }

    /// What the refusal says of any file or call, in a sentence. A [`Fault`](crate::Fault) says what is wrong with one file.
    pub fn sentence(self) -> &'static str {
        match self {
            Refusal::Short => "the file is under 52 bytes",
            Refusal::Kind => "the kind is not 1 to 6",
            Refusal::Setting => "width or step is not allowed for the kind",
            Refusal::Extent => "dimension count, extents or their product are not a picture's",
            Refusal::Counts => "a count, offset or length is not what the layout gives",
            Refusal::Body => "no picture has these bytes",
            Refusal::Picture => "the words are not cells in number",
            Refusal::Beyond => "a position, rank, coordinate, box or rank range lies outside",
            Refusal::Unfit => "an offset of kind 3 does not fit its width",
            Refusal::Small => "the destination is shorter than the result",
            Refusal::Other => "dimensions, empty word or words of the two files differ",
        }
    }
}

impl fmt::Display for Refusal {
    fn fmt(&self, f: &mut fmt::Formatter<'_>) -> fmt::Result {
        write!(f, "{} {}: {}", self.number(), self.word(), self.sentence())
    }
}

impl Error for Refusal {}
