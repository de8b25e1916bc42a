//! Kind 2, and the rule that kinds 2, 3, 4 and 6 share: positions rise and lie below the cells.

use alloc::format;
use alloc::string::String;

use super::beyond::Beyond;
use super::header::Header;
use super::{fault, number, Test};
use crate::header::HEADER_LENGTH;

/// Tests the first part of kind 2.
pub(super) fn parts(file: &[u8], header: &Header) -> Test {
    rising(header, |rising| {
        for rank in 0..header.stored as usize {
            let at = HEADER_LENGTH + 4 * rank;
            let position = number(file, at, 4);
            rising.place(position, at, || {
                format!("rank {rank} is at position {position}")
            })?;
        }
        Ok(())
    })
}

/// Tests stored positions that a closure gives in the order of their ranks.
pub(super) fn rising(header: &Header, test: impl FnOnce(&mut Rising) -> Test) -> Test {
    let mut rising = Rising {
        rank: 0,
        before: None,
        slack: 0,
        reach: 0,
        beyond: Beyond::new(header),
    };
    let found = test(&mut rising);
    if rising.beyond.past() > rising.reach {
        rising.beyond.never_one();
    }
    rising.beyond.told(found)
}

/// The stored positions met so far.
pub(super) struct Rising<'a> {
    /// The rank of the next position.
    rank: u64,
    /// The position of the rank before it; nothing before rank 0.
    before: Option<u64>,
    /// The most by which the last position can be too high for one wrong entry.
    slack: u64,
    /// The same of the first position past the last cell; those that follow it are no more so.
    reach: u64,
    beyond: Beyond<'a>,
}

impl Rising<'_> {
    /// The position of the rank before the next one; nothing before rank 0.
    pub(super) fn before(&self) -> Option<u64> {
        self.before
    }

    /// Tests the next position, which its entry has as it is; `says` is the beginning of the message.
    pub(super) fn place(&mut self, position: u64, at: usize, says: impl Fn() -> String) -> Test {
        self.slack = self.room_below(position);
        if self.beyond.is(position) {
            self.reach_first();
            self.beyond.meet_other(position, at, &says);
        }
        self.add(position, at, says)
    }

    /// Tests the next position, which its entry has by way of one before it; `says` is the beginning of the message.
    pub(super) fn follow(&mut self, position: u64, at: usize, says: impl Fn() -> String) -> Test {
        self.slack = self.slack.max(self.room_below(position));
        if self.beyond.is(position) {
            self.reach_first();
            self.beyond.meet(position, at, &says);
        }
        self.add(position, at, says)
    }

    /// The cells between the position before the next one and the next one.
    fn room_below(&self, position: u64) -> u64 {
        let lowest = self.before.map_or(0, |before| before + 1);
        position.saturating_sub(lowest)
    }

    /// Keeps the slack of the first position past the last cell.
    fn reach_first(&mut self) {
        if self.beyond.past() == 0 {
            self.reach = self.slack;
        }
    }

    /// Tests that the next position is above the one before it.
    fn add(&mut self, position: u64, at: usize, says: impl Fn() -> String) -> Test {
        if let Some(before) = self.before.filter(|&before| position <= before) {
            let rank = self.rank - 1;
            let message = format!("{}, not after rank {rank} at position {before}", says());
            return fault(at, message);
        }
        self.before = Some(position);
        self.rank += 1;
        Ok(())
    }
}
