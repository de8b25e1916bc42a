//! The signal list.

/// A refusal, with the number of the signal list.
#[derive(Clone, Copy, Debug, PartialEq, Eq)]
pub enum Refusal {
    /// The file is under 52 bytes.
    Short = 1,
    /// The kind is not 1 to 6.
    Kind = 2,
    /// Width or step is not allowed for the kind.
    Setting = 3,
    /// Dimension count, extent or product is outside the picture's rule.
    Extent = 4,
    /// A count, offset or length is not what the layout gives.
    Counts = 5,
    /// None of 1 to 5, and no picture has these bytes.
    Body = 6,
    /// The words lent aren't cells in number.
    Picture = 7,
    /// A position, rank, coordinate, box or rank range lies outside.
    Beyond = 8,
    /// A kind 3 offset of the file to be put out doesn't fit its width.
    Unfit = 9,
    /// The destination is shorter than the result.
    Small = 10,
    /// Two files whose dimensions, empty word or words differ.
    Other = 11,
}

impl Refusal {
    /// The number of the signal list, 1 to 11.
    pub fn number(self) -> u32 {
        self as u32
    }

    /// The word of the signal list.
    pub fn word(self) -> &'static str {
        match self {
            Refusal::Short => "short",
            Refusal::Kind => "kind",
            Refusal::Setting => "setting",
            Refusal::Extent => "extent",
            Refusal::Counts => "counts",
            Refusal::Body => "body",
            Refusal::Picture => "picture",
            Refusal::Beyond => "beyond",
            Refusal::Unfit => "unfit",
            Refusal::Small => "small",
            Refusal::Other => "other",
        }
    }
}

/// The number of an answer: 0 when accepted, else the refusal's.
pub fn number<T>(answer: &Result<T, Refusal>) -> u32 {
    match answer {
        Ok(_) => 0,
        Err(refusal) => refusal.number(),
    }
}
