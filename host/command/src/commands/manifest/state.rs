//! How a file stands to what the manifest says of it.

use std::ffi::OsStr;

use radar_archive::Setting;

use crate::commands::best;
use crate::commands::manifest::facts::{Facts, What};
use crate::commands::manifest::listed::{Listed, Was};
use crate::json::Object;
use crate::refused;

/// How a file stands to the manifest.
#[derive(Clone, Debug, PartialEq, Eq)]
pub(super) enum State {
    /// The same bytes.
    Unchanged,
    /// Other bytes, the same picture.
    ReEncoded(String),
    /// Other bytes, and not the same picture; how.
    Changed(String),
    /// In the manifest, not in the folder.
    Missing,
    /// In the folder, not in the manifest.
    New,
    /// It could not be read; why.
    Unread(String),
}

impl State {
    /// Compares what the manifest says with the file.
    pub(super) fn of(listed: &Listed, now: &Facts) -> State {
        if listed.sum == now.sum {
            return same_bytes(listed, now);
        }
        match (listed.was, &now.what) {
            (Some(Was::Picture(was)), What::Picture(sum, setting)) if was == *sum => {
                re_encoded(listed.setting, *setting)
            }
            (was, what) => State::Changed(changed(was, what)),
        }
    }

    /// The word for it.
    pub(super) fn word(&self) -> &'static str {
        match self {
            State::Unchanged => "unchanged",
            State::ReEncoded(_) => "re-encoded",
            State::Changed(_) => "changed",
            State::Missing => "missing",
            State::New => "new",
            State::Unread(_) => "unread",
        }
    }

    /// What is told besides the word.
    fn message(&self) -> Option<&str> {
        match self {
            State::Unchanged => None,
            State::ReEncoded(how) | State::Changed(how) | State::Unread(how) => Some(how),
            State::Missing => Some("in the manifest, not in the folder"),
            State::New => Some("in the folder, not in the manifest"),
        }
    }

    /// What is told after the path.
    pub(super) fn sentence(&self) -> String {
        let word = self.word();
        self.message()
            .map_or(word.to_string(), |message| format!("{word}, {message}"))
    }

    /// The same as an object.
    pub(super) fn object(
        &self,
        path: &OsStr,
        listed: Option<&Listed>,
        now: Option<&Facts>,
    ) -> Object {
        let mut object = Object::new();
        object.path("path", path).text("state", self.word());
        if let State::Unread(message) = self {
            object.text("error", message);
        } else if let Some(message) = self.message() {
            object.text("message", message);
        }
        if let Some(listed) = listed {
            object.object("manifest", &said(listed));
        }
        if let Some(now) = now {
            object.object("file", &found(now));
        }
        object
    }
}

/// What is said where the lines of the manifest about a file cannot all be true.
const DAMAGED: &str =
    "or the manifest is: its lines about this file contradict each other, so it is damaged itself";

/// Bytes that are as they were. What the manifest says of their picture has to be right too.
fn same_bytes(listed: &Listed, now: &Facts) -> State {
    let right = match (listed.was, &now.what) {
        (None, _) => true,
        (Some(Was::Picture(was)), What::Picture(sum, setting)) => {
            was == *sum && listed.setting.is_none_or(|listed| listed == *setting)
        }
        (Some(Was::Refused(was)), What::Refused(fault)) => was == fault.refusal,
        _ => false,
    };
    if right {
        return State::Unchanged;
    }
    State::Changed(DAMAGED.to_string())
}

/// Other bytes of the same picture. They have another setting: a picture has one file in each.
fn re_encoded(was: Option<Setting>, now: Setting) -> State {
    if was == Some(now) {
        return State::Changed(DAMAGED.to_string());
    }
    let before = was.map_or(String::new(), |was| {
        format!("{} before, ", best::written(was))
    });
    let now = best::written(now);
    State::ReEncoded(format!("the same picture: {before}{now} now"))
}

/// What is said of a file that changed.
fn changed(was: Option<Was>, now: &What) -> String {
    match (was, now) {
        (Some(Was::Picture(_)), What::Picture(..)) => "another picture".to_string(),
        (Some(Was::Picture(_)), What::Refused(fault)) => {
            format!("a picture before, now refused, {fault}")
        }
        (Some(Was::Picture(_)), What::Manifest) => "a picture before, now a manifest".to_string(),
        (Some(Was::Refused(was)), now) => {
            let (number, word) = (was.number(), was.word());
            format!("refused before, {number} {word}; now {}", told(now))
        }
        (None, now) => format!("other bytes, now {}", told(now)),
    }
}

/// What a file is now, in words.
fn told(now: &What) -> String {
    match now {
        What::Picture(..) => "a picture".to_string(),
        What::Refused(fault) => format!("refused, {fault}"),
        What::Manifest => "a manifest".to_string(),
    }
}

/// What the manifest says, as an object.
fn said(listed: &Listed) -> Object {
    let mut object = Object::new();
    object.text("sha256", &listed.sum.to_string());
    match listed.was {
        Some(Was::Picture(sum)) => {
            object.text("picture", &sum.to_string());
        }
        Some(Was::Refused(was)) => {
            let mut members = Object::new();
            let number = was.number().into();
            members.number("number", number).text("word", was.word());
            object.object("refused", &members);
        }
        None => {}
    }
    if let Some(setting) = listed.setting {
        put_setting(&mut object, setting);
    }
    object
}

/// What the file is now, as an object.
fn found(now: &Facts) -> Object {
    let mut object = Object::new();
    object.text("sha256", &now.sum.to_string());
    match &now.what {
        What::Picture(sum, setting) => {
            object.text("picture", &sum.to_string());
            put_setting(&mut object, *setting);
        }
        What::Refused(fault) => {
            let mut members = Object::new();
            refused::members(&mut members, fault);
            object.object("refused", &members);
        }
        What::Manifest => {}
    }
    object
}

/// Puts a setting in an object.
fn put_setting(object: &mut Object, setting: Setting) {
    object
        .number("kind", setting.kind.number().into())
        .number("width", setting.width.into())
        .number("step", setting.step.into());
}
