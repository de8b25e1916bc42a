//! The table of demand 3.

use crate::layout::put_out;
use crate::picture::{Dimensions, Picture, Position, Setting};
use crate::refusal::{number, Refusal};

/// A call of a list, without its file and destination.
#[derive(Clone, Copy, Debug, PartialEq, Eq)]
pub enum Request {
    /// Writes a word at a position.
    Write {
        /// Where.
        position: Position,
        /// The word put there.
        word: u32,
    },
    /// Changes the setting.
    Change {
        /// The setting wanted.
        setting: Setting,
    },
}

/// One word for each position and a setting, kept beside a list of writes and changes. It is fed
/// only requests and the lengths of destinations.
#[derive(Clone, Debug, PartialEq, Eq)]
pub struct Table {
    setting: Setting,
    picture: Picture,
    file: Vec<u8>,
}

impl Table {
    /// The table of a list whose first file is made of words that are all `empty`. Refuses as that
    /// make does: 2, 3, 4, 10.
    pub fn new(
        setting: Setting,
        count: u32,
        extents: &[u32],
        empty: u32,
        room: usize,
    ) -> Result<Table, Refusal> {
        setting.check()?;
        let dims = Dimensions::lent(count, extents)?;
        let picture = Picture {
            dims,
            empty,
            words: vec![empty; dims.cells()? as usize],
        };
        let file = put_out(setting, dims, empty, &picture.words, room)?;
        Ok(Table {
            setting,
            picture,
            file,
        })
    }

    /// The number of the call, 0 when accepted. A refused call leaves the table as it was.
    pub fn feed(&mut self, request: Request, room: usize) -> u32 {
        number(&match request {
            Request::Write { position, word } => self.write(position, word, room),
            Request::Change { setting } => self.change(setting, room),
        })
    }

    /// The words, one for each position.
    pub fn words(&self) -> &[u32] {
        &self.picture.words
    }

    /// The setting.
    pub fn setting(&self) -> Setting {
        self.setting
    }

    /// The file that the layout gives for the words in the setting.
    pub fn file(&self) -> &[u8] {
        &self.file
    }

    /// Tests 8, 9, 10.
    fn write(&mut self, position: Position, word: u32, room: usize) -> Result<(), Refusal> {
        let at = position.0 as usize;
        let before = *self.picture.words.get(at).ok_or(Refusal::Beyond)?;
        self.picture.words[at] = word;
        match self.file_in(self.setting, room) {
            Ok(file) => {
                self.file = file;
                Ok(())
            }
            Err(refusal) => {
                self.picture.words[at] = before;
                Err(refusal)
            }
        }
    }

    /// Tests 2, 3, 9, 10.
    fn change(&mut self, setting: Setting, room: usize) -> Result<(), Refusal> {
        setting.check()?;
        self.file = self.file_in(setting, room)?;
        self.setting = setting;
        Ok(())
    }

    /// The file of the words in a setting. Tests 9, 10.
    fn file_in(&self, setting: Setting, room: usize) -> Result<Vec<u8>, Refusal> {
        let Picture { dims, empty, words } = &self.picture;
        put_out(setting, *dims, *empty, words, room)
    }
}
