//! The table of demand 3: it is fed arguments and lengths of destinations, and sees no answer and no byte of the engine.

use crate::settings::{self, Setting};

/// A call of a list, without its file and destination.
#[derive(Clone, Copy, Debug)]
pub enum Request {
    /// Writes a word at a position.
    Write(u32, u32),
    /// Changes the setting.
    Change(Setting),
}

/// One word for each position, and a setting.
#[derive(Clone, Debug)]
pub struct Table {
    dimensions: u32,
    extents: [u32; 4],
    empty: u32,
    /// One word for each position.
    pub words: Vec<u32>,
    /// The setting.
    pub setting: Setting,
}

impl Table {
    /// The table at the start of a list: all words are E, the setting is make's.
    pub fn new(
        setting: Setting,
        dimensions: u32,
        extents: [u32; 4],
        empty: u32,
        cells: u32,
    ) -> Table {
        Table {
            dimensions,
            extents,
            empty,
            words: vec![empty; cells as usize],
            setting,
        }
    }

    /// What the layout gives for some words in a setting, or 2, 3, 9.
    fn laid_out(&self, words: &[u32], setting: Setting) -> Result<Vec<u8>, u32> {
        let setting = settings::reader(setting);
        let file = reader::make(
            setting,
            self.dimensions,
            &self.extents,
            self.empty,
            words,
            usize::MAX,
        );
        file.map_err(|refusal| refusal.number())
    }

    /// The table's file.
    pub fn file(&self) -> Vec<u8> {
        match self.laid_out(&self.words, self.setting) {
            Ok(file) => file,
            Err(number) => panic!("the table's own file is refused with {number}"),
        }
    }

    /// Feeds a call: its number, and the file that it puts out if it is accepted.
    pub fn feed(&mut self, request: Request, room: usize) -> Result<Vec<u8>, u32> {
        match request {
            Request::Write(position, word) => {
                let mut words = self.words.clone();
                *words.get_mut(position as usize).ok_or(8u32)? = word;
                let file = self.laid_out(&words, self.setting)?;
                if file.len() > room {
                    return Err(10);
                }
                self.words = words;
                Ok(file)
            }
            Request::Change(setting) => {
                let file = self.laid_out(&self.words, setting)?;
                if file.len() > room {
                    return Err(10);
                }
                self.setting = setting;
                Ok(file)
            }
        }
    }
}
