//! How long a picture's file is in each setting.

use alloc::borrow::Cow;

use crate::buffers::accepted;
use crate::header::HEADER_LENGTH;
use crate::layout::{self, Counts};
use crate::{Archive, Kind, Setting};

/// The largest step of kind 3.
const LARGEST_STEP: usize = 255;

/// Ranks that are measured at a time for all steps of kind 3, so that their positions stay in the processor's cache.
const BLOCK: usize = 1 << 15;

/// A setting and the length of the picture's file in it.
#[derive(Clone, Copy, Debug, PartialEq, Eq)]
pub struct Offer {
    /// The setting.
    pub setting: Setting,
    /// The length in bytes.
    pub length: usize,
}

/// What the lengths of a picture's files follow from.
///
/// ```
/// use radar_archive::{Archive, Dimensions, Kind, Lengths, Picture, Setting};
///
/// let words = vec![0, 0, 7, 9, 0, 5, 0, 0, 0, 0, 300, 0];
/// let picture = Picture { dimensions: Dimensions::of(&[12])?, empty: 0, words };
/// let archive = Archive::open(picture.make(Setting::runs())?)?;
///
/// let lengths = Lengths::of(&archive);
/// assert_eq!(lengths.of_setting(Setting::positions()), Some(84));
/// assert_eq!(lengths.of_setting(Setting::paged_runs(65)), None);
/// assert_eq!(lengths.shortest_of_kind(Kind::PagedRuns).setting, Setting::paged_runs(3));
/// assert_eq!(lengths.shortest(), archive.best());
/// # Ok::<(), radar_archive::Refusal>(())
/// ```
#[derive(Clone, Debug)]
pub struct Lengths {
    /// The stored cells, N.
    stored: usize,
    /// The runs.
    runs: u32,
    /// The jumps of kinds 4 and 6 at width 1 and at width 2.
    jumps: [usize; 2],
    /// The largest offset of kind 3 at each step; at step 0 nothing.
    offsets: [u32; LARGEST_STEP + 1],
}

impl Lengths {
    /// Measures the picture of an opened file. While it does, a file of another kind than 2 takes 8 bytes more for each stored cell.
    pub fn of<B: AsRef<[u8]>>(archive: &Archive<B>) -> Lengths {
        let file = positions_file(archive);
        let stored = archive.stored_count() as usize;
        let positions = Positions(&file[HEADER_LENGTH..HEADER_LENGTH + 4 * stored]);
        let mut lengths = Lengths {
            stored,
            runs: u32::from(stored > 0),
            jumps: [usize::from(stored > 0); 2],
            offsets: [0; LARGEST_STEP + 1],
        };
        lengths.measure_differences(positions);
        lengths.measure_offsets(positions);
        lengths
    }

    /// Counts the runs and the jumps after rank 0.
    fn measure_differences(&mut self, positions: Positions) {
        for (before, position) in positions.all().zip(positions.all().skip(1)) {
            let difference = position - before;
            self.runs += u32::from(difference > 1);
            self.jumps[0] += usize::from(difference > largest(1));
            self.jumps[1] += usize::from(difference > largest(2));
        }
    }

    /// Finds the largest offset at each step: the last offset of some group. At step 1 all are 0.
    fn measure_offsets(&mut self, positions: Positions) {
        let stored = self.stored;
        for block in (0..stored).step_by(BLOCK) {
            let end = stored.min(block + BLOCK);
            for step in 2..=LARGEST_STEP {
                // The whole groups that end in the block.
                let first_end = (block / step + 1) * step;
                for group_end in (first_end..=end).step_by(step) {
                    self.measure_group(step, positions, group_end - step, group_end);
                }
            }
        }
        for step in 2..=LARGEST_STEP {
            self.measure_group(step, positions, stored - stored % step, stored);
        }
    }

    /// Measures one group, which may be empty: the ranks from its first up to its end.
    fn measure_group(&mut self, step: usize, positions: Positions, first: usize, end: usize) {
        if first < end {
            let offset = positions.at(end - 1) - positions.at(first);
            self.offsets[step] = self.offsets[step].max(offset);
        }
    }

    /// The number of runs.
    pub fn runs(&self) -> u32 {
        self.runs
    }

    /// The length of the file in a setting; nothing where the setting is not allowed or the picture is unfit for it.
    pub fn of_setting(&self, setting: Setting) -> Option<usize> {
        if !setting.is_allowed() || !self.fits(setting) {
            return None;
        }
        let counts = Counts {
            stored: self.stored,
            runs: self.runs as usize,
            jumps: self.jumps[usize::from(setting.width == 2)],
        };
        Some(layout::length(setting, counts))
    }

    /// Whether the picture has a file in an allowed setting: in kind 3 each offset fits the width.
    fn fits(&self, setting: Setting) -> bool {
        setting.kind != Kind::BaseOffset
            || self.offsets[setting.step as usize] <= largest(setting.width)
    }

    /// The shortest file of a kind; on equal length the lowest width, then the lowest step.
    pub fn shortest_of_kind(&self, kind: Kind) -> Offer {
        let settings = kind.widths().flat_map(|width| {
            let setting = move |step| Setting::of(kind, width, step);
            kind.steps().map(setting)
        });
        let offers = settings.filter_map(|setting| {
            let length = self.of_setting(setting)?;
            Some(Offer { setting, length })
        });
        shortest(offers)
    }

    /// The shortest file of all settings; on equal length the lowest kind, width, step.
    pub fn shortest(&self) -> Offer {
        shortest(
            Kind::ALL
                .map(|kind| self.shortest_of_kind(kind))
                .into_iter(),
        )
    }
}

/// The shortest of some offers, the first on equal length. There is one: every picture has a file in the lowest width and step of a kind.
fn shortest(offers: impl Iterator<Item = Offer>) -> Offer {
    match offers.min_by_key(|offer| offer.length) {
        Some(offer) => offer,
        None => panic!("a picture without a file"),
    }
}

/// The picture's file of kind 2.
fn positions_file<B: AsRef<[u8]>>(archive: &Archive<B>) -> Cow<'_, [u8]> {
    let setting = Setting::positions();
    if archive.setting() == setting {
        return Cow::Borrowed(archive.bytes());
    }
    Cow::Owned(accepted(archive.change(setting)))
}

/// The positions of a file of kind 2, 4 bytes each.
#[derive(Clone, Copy)]
struct Positions<'a>(&'a [u8]);

impl<'a> Positions<'a> {
    /// The position of a rank.
    fn at(self, rank: usize) -> u32 {
        number(&self.0[4 * rank..4 * rank + 4])
    }

    /// All positions in rising order.
    fn all(self) -> impl Iterator<Item = u32> + 'a {
        self.0.chunks_exact(4).map(number)
    }
}

/// The number of 4 bytes, lowest first.
fn number(bytes: &[u8]) -> u32 {
    u32::from_le_bytes([bytes[0], bytes[1], bytes[2], bytes[3]])
}

/// The largest number of a width of 1 or 2 bytes.
fn largest(width: u32) -> u32 {
    if width == 1 {
        255
    } else {
        65_535
    }
}
