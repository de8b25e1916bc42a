//! `manifest write`.

use std::collections::BTreeMap;
use std::ffi::OsStr;

use crate::arguments::{Given, Opt};
use crate::commands::manifest::facts::{Facts, What};
use crate::commands::manifest::folder::{Member, Members};
use crate::commands::manifest::tally::{files, passed_over};
use crate::commands::manifest::text::{self, LONGEST};
use crate::failure::{note, Failure, DONE, REFUSED};
use crate::numbers::grouped;
use crate::output::{Content, Output};
use crate::progress::Progress;
use crate::sha256::Sha256;

pub(super) fn run(given: &Given, folder: &OsStr, name: &OsStr) -> Result<u8, Failure> {
    let output = Output::look_for_text(name, given.has(&Opt::FORCE))?;
    let sha256 = Sha256::look()?;
    let members = Members::of(folder, given.has(&Opt::ALL), name, &BTreeMap::new());
    for (path, message) in &members.notes {
        note(path, message);
    }
    let mut write = Write {
        progress: Progress::new(members.all.len(), !given.has(&Opt::NO_PROGRESS)),
        sha256,
        text: text::heading(),
        pictures: 0,
        manifests: 0,
        refused: 0,
        unread: 0,
    };
    write.all(&members.all)?;
    let name = Some(name).filter(|name| *name != "-");
    let name = name.unwrap_or("standard output".as_ref());
    write.fits(name)?;
    output.put(&write.text, Content::Text)?;
    note(name, &write.summary(members.hidden));
    Ok(if write.refused == 0 { DONE } else { REFUSED })
}

/// A manifest on its way.
struct Write {
    progress: Progress,
    sha256: Sha256,
    text: Vec<u8>,
    pictures: usize,
    manifests: usize,
    refused: usize,
    unread: usize,
}

impl Write {
    /// Takes all files. Where the walk found a name that cannot be read, no file is read.
    fn all(&mut self, members: &[Member]) -> Result<(), Failure> {
        for member in members {
            if let Some(why) = &member.unread {
                self.unread(member, why);
            }
        }
        if self.unread == 0 {
            members.iter().try_for_each(|member| self.take(member))?;
        }
        self.progress.hide();
        Ok(())
    }

    /// Takes a file.
    fn take(&mut self, member: &Member) -> Result<(), Failure> {
        match Facts::of(&member.path, &self.sha256)? {
            Ok(facts) => {
                self.count(member, &facts.what);
                text::put(&mut self.text, &member.name, &facts);
            }
            Err(why) => self.unread(member, &why),
        }
        self.progress.step();
        Ok(())
    }

    /// Counts a file that was read, and tells a refused one.
    fn count(&mut self, member: &Member, what: &What) {
        match what {
            What::Picture(..) => self.pictures += 1,
            What::Manifest => self.manifests += 1,
            What::Refused(fault) => {
                self.refused += 1;
                self.progress.hide();
                let (path, fault) = (member.path.clone(), fault.clone());
                Failure::Refused { path, fault }.tell();
            }
        }
    }

    /// Tells a name that cannot be read.
    fn unread(&mut self, member: &Member, why: &str) {
        self.unread += 1;
        self.progress.hide();
        Failure::file(&member.path, why).tell();
    }

    /// Refuses a manifest that is not whole, or that could not be read again.
    fn fits(&self, name: &OsStr) -> Result<(), Failure> {
        let failed = |why: String| Err(Failure::file(name, format!("not written: {why}")));
        if self.unread > 0 {
            let count = self.unread;
            return failed(format!(
                "{count} of the names below the folder cannot be read"
            ));
        }
        if self.text.len() as u64 > LONGEST {
            let most = grouped(LONGEST);
            return failed(format!(
                "it would have more than {most} bytes; write one for each subfolder"
            ));
        }
        Ok(())
    }

    /// What is told at the end.
    fn summary(&self, hidden: usize) -> String {
        let Write {
            pictures,
            manifests,
            refused,
            ..
        } = self;
        let listed = files(pictures + manifests + refused);
        let manifests = match manifests {
            0 => String::new(),
            count => format!(", {count} of other manifests"),
        };
        let passed = passed_over(hidden, "lists");
        format!("{listed}: {pictures} with a picture, {refused} refused{manifests}{passed}")
    }
}
