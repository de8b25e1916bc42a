//! `manifest verify`.

use std::collections::BTreeMap;
use std::ffi::{OsStr, OsString};
use std::path::Path;

use crate::arguments::{Given, Opt};
use crate::commands::manifest::facts::Facts;
use crate::commands::manifest::folder::{is_hidden, Member, Members};
use crate::commands::manifest::listed::{self, Listed};
use crate::commands::manifest::state::State;
use crate::commands::manifest::tally::Tally;
use crate::failure::{note, tell, Failure};
use crate::output::Results;
use crate::progress::Progress;
use crate::sha256::Sha256;

pub(super) fn run(given: &Given, folder: &OsStr, name: &OsStr) -> Result<u8, Failure> {
    let listed = listed::read(name)?;
    let sha256 = Sha256::look()?;
    let all = given.has(&Opt::ALL) || listed.keys().any(|name| is_hidden(name));
    let members = Members::of(folder, all, name, &listed);
    let mut verify = Verify {
        progress: Progress::new(members.all.len(), !given.has(&Opt::NO_PROGRESS)),
        results: Results::open()?,
        json: given.has(&Opt::JSON),
        quiet: given.has(&Opt::QUIET),
        tally: Tally::new(members.hidden),
        sha256,
        listed,
    };
    verify.all(folder, &members)?;
    verify.end()
}

/// A comparison on its way.
struct Verify {
    progress: Progress,
    results: Results,
    json: bool,
    quiet: bool,
    tally: Tally,
    sha256: Sha256,
    /// What the manifest says of the files that were not met yet.
    listed: BTreeMap<OsString, Listed>,
}

impl Verify {
    /// Takes all names of the folder in the order of the walk, and then those that the manifest alone has.
    fn all(&mut self, folder: &OsStr, members: &Members) -> Result<(), Failure> {
        if !self.quiet {
            members
                .notes
                .iter()
                .for_each(|(path, text)| note(path, text));
        }
        members
            .all
            .iter()
            .try_for_each(|member| self.take(member))?;
        let unread = members.all.iter().filter(|member| member.unread.is_some());
        let unread: Vec<&Path> = unread.map(|member| Path::new(&member.name)).collect();
        for (name, listed) in std::mem::take(&mut self.listed) {
            let path = Path::new(folder).join(&name).into_os_string();
            let hidden = unread
                .iter()
                .any(|above| Path::new(&name).starts_with(above));
            let state = match hidden {
                true => State::Unread("cannot be read: its folder cannot be read".to_string()),
                false => State::Missing,
            };
            self.told(&path, state, Some(&listed), None)?;
        }
        Ok(())
    }

    /// Takes a name of the folder.
    fn take(&mut self, member: &Member) -> Result<(), Failure> {
        let listed = self.listed.remove(&member.name);
        let read = match (&member.unread, &listed) {
            (Some(why), _) => Some(Err(why.clone())),
            (None, Some(_)) => Some(Facts::of(&member.path, &self.sha256)?),
            (None, None) => None,
        };
        let state = match (&listed, &read) {
            (_, Some(Err(why))) => State::Unread(why.clone()),
            (Some(listed), Some(Ok(now))) => State::of(listed, now),
            _ => State::New,
        };
        let now = read.and_then(Result::ok);
        self.told(&member.path, state, listed.as_ref(), now.as_ref())?;
        self.progress.step();
        Ok(())
    }

    /// Counts and tells what came out for a file.
    fn told(
        &mut self,
        path: &OsStr,
        state: State,
        listed: Option<&Listed>,
        now: Option<&Facts>,
    ) -> Result<(), Failure> {
        self.tally.count(&state);
        if self.quiet && state == State::Unchanged {
            return Ok(());
        }
        if self.results.is_terminal() {
            self.progress.hide();
        }
        if self.json {
            return self.results.put(&state.object(path, listed, now).line());
        }
        if let State::Unread(why) = state {
            self.progress.hide();
            self.results.flush()?;
            Failure::file(path, why).tell();
            return Ok(());
        }
        let line = format!(": {}\n", state.sentence());
        self.results.put_path(path, &line)
    }

    /// Tells the summary, unless it is to be quiet and all is unchanged, and gives the exit status.
    fn end(mut self) -> Result<u8, Failure> {
        self.progress.hide();
        if self.json {
            self.results.put(&self.tally.object().line())?;
        }
        let finished = self.results.finish();
        let silent = self.quiet && self.tally.all_unchanged();
        if !self.json && !silent {
            tell(&format!("{}\n", self.tally.sentence()));
        }
        finished.map(|()| self.tally.status())
    }
}
