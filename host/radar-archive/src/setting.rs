//! Settings: kind, width and step.

use crate::layout::{self, Counts};
use crate::{Kind, Refusal, MOST_CELLS};

/// Kind, width and step.
///
/// Width and step are not checked when a setting is put together; the calls that take one refuse with
/// [`Refusal::Setting`](crate::Refusal::Setting).
///
/// ```
/// use radar_archive::{Kind, Refusal, Setting};
///
/// let setting = Setting::base_offset(1, 2);
/// assert_eq!(setting, Setting { kind: Kind::BaseOffset, width: 1, step: 2 });
/// assert_eq!(Setting::try_from([3, 1, 2]), Ok(setting));
/// assert_eq!(Setting::try_from([7, 0, 0]), Err(Refusal::Kind));
/// ```
#[derive(Clone, Copy, Debug, PartialEq, Eq, Hash, PartialOrd, Ord)]
pub struct Setting {
    /// The header kind.
    pub kind: Kind,
    /// Bytes of an offset (kind 3) or a difference (kinds 4 and 6): 1 or 2; else 0.
    pub width: u32,
    /// Ranks for each base in kind 3, 1 to 255; entries of a page in kind 5, 2 to 64; jumps for each pointer in kind 6, 1 to 255; else 0.
    pub step: u32,
}

impl Setting {
    /// Kind 1, runs: short where stored cells stand together.
    pub fn runs() -> Setting {
        Setting::of(Kind::Runs, 0, 0)
    }

    /// Kind 2, positions: each lookup is one binary search.
    pub fn positions() -> Setting {
        Setting::of(Kind::Positions, 0, 0)
    }

    /// Kind 3, base and offset: width 1 or 2, step 1 to 255.
    pub fn base_offset(width: u32, step: u32) -> Setting {
        Setting::of(Kind::BaseOffset, width, step)
    }

    /// Kind 4, jumps: width 1 or 2. A lookup is one pass along the file.
    pub fn jumps(width: u32) -> Setting {
        Setting::of(Kind::Jumps, width, 0)
    }

    /// Kind 5, paged runs: step 2 to 64.
    pub fn paged_runs(step: u32) -> Setting {
        Setting::of(Kind::PagedRuns, 0, step)
    }

    /// Kind 6, pointed jumps: width 1 or 2, step 1 to 255. A lookup begins at a jump whose rank the file has.
    pub fn pointed_jumps(width: u32, step: u32) -> Setting {
        Setting::of(Kind::PointedJumps, width, step)
    }

    /// A setting of kind, width and step.
    pub fn of(kind: Kind, width: u32, step: u32) -> Setting {
        Setting { kind, width, step }
    }

    /// Whether the kind allows this width and step.
    ///
    /// ```
    /// # use radar_archive::Setting;
    /// assert!(Setting::paged_runs(64).is_allowed());
    /// assert!(!Setting::paged_runs(65).is_allowed());
    /// ```
    pub fn is_allowed(self) -> bool {
        let Setting { kind, width, step } = self;
        kind.widths().contains(&width) && kind.steps().contains(&step)
    }

    /// A length in bytes that no file of this setting with so many stored cells exceeds; 0 where there is no such file.
    ///
    /// ```
    /// # use radar_archive::Setting;
    /// assert_eq!(Setting::positions().longest_file(4), 84);
    /// assert_eq!(Setting::runs().longest_file(4), 52 + 4 * 8 + 4 * 4);
    /// assert_eq!(Setting::pointed_jumps(1, 3).longest_file(4), 52 + 4 * 4 + 4 + 2 * 4 + 4 * 4);
    /// assert_eq!(Setting::paged_runs(65).longest_file(4), 0);
    /// ```
    pub fn longest_file(self, stored: usize) -> usize {
        if stored > MOST_CELLS as usize || !self.is_allowed() {
            return 0;
        }
        // Each stored cell is a run and a jump of its own at most.
        let counts = Counts {
            stored,
            runs: stored,
            jumps: stored,
        };
        layout::length(self, counts)
    }
}

impl From<Setting> for [u32; 3] {
    /// The three numbers in the order of the calls.
    fn from(setting: Setting) -> [u32; 3] {
        [setting.kind.number(), setting.width, setting.step]
    }
}

impl TryFrom<[u32; 3]> for Setting {
    type Error = Refusal;

    /// The setting of three numbers, or 2.
    fn try_from([kind, width, step]: [u32; 3]) -> Result<Setting, Refusal> {
        let kind = Kind::of_number(kind).ok_or(Refusal::Kind)?;
        Ok(Setting { kind, width, step })
    }
}
