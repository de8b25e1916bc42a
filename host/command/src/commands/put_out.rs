//! What the commands that put out a file share.

use std::ffi::OsStr;

use radar_archive::{Archive, Refusal, Setting};

use crate::arguments::{Given, Opt};
use crate::failure::{Failure, DONE};
use crate::input::Input;
use crate::output::{Content, Output};
use crate::refused;

/// The target that `-o` names, looked at.
pub(super) fn output(given: &Given) -> Result<Output, Failure> {
    look(given, given.required(&Opt::OUTPUT)?)
}

/// Looks at a target, and locks it where standard input is not read, which may be long in coming.
pub(super) fn look(given: &Given, name: &OsStr) -> Result<Output, Failure> {
    if name.is_empty() {
        return Err(given.bad_value(&Opt::OUTPUT, "'' names no file"));
    }
    let mut output = Output::look(name, given.has(&Opt::FORCE))?;
    if !given.reads_input() {
        output.lock()?;
    }
    Ok(output)
}

/// Puts out a picture file and gives the exit status.
pub(super) fn put(output: Output, file: &[u8]) -> Result<u8, Failure> {
    output.put(file, Content::Picture)?;
    Ok(DONE)
}

/// A file that a call puts out in a destination of at most `most` bytes, if so many are allowed.
///
/// `longest` is a length that the file does not exceed. A refusal with 10 tells the length that the file has; any other is told by
/// `why`.
pub(super) fn file(
    path: &OsStr,
    longest: usize,
    most: Option<u32>,
    mut call: impl FnMut(&mut [u8]) -> Result<usize, Refusal>,
    why: impl FnOnce(Refusal) -> String,
) -> Result<Vec<u8>, Failure> {
    let lent = most.map_or(longest, |most| longest.min(most as usize));
    let mut destination = vec![0; lent];
    match (call(&mut destination), most) {
        (Ok(length), _) => {
            destination.truncate(length);
            Ok(destination)
        }
        (Err(Refusal::Small), Some(most)) => {
            let length = call(&mut vec![0; longest]).unwrap_or(longest);
            let message = refused::small(length, most);
            Err(Failure::refused(path, Refusal::Small, message))
        }
        (Err(refusal), _) => Err(Failure::refused(path, refusal, why(refusal))),
    }
}

/// The setting of three numbers, asked for beside the file of a path, or the failure that there is no such kind.
pub(super) fn setting(path: &OsStr, numbers: [u32; 3]) -> Result<Setting, Failure> {
    Setting::try_from(numbers)
        .map_err(|refusal| Failure::refused(path, refusal, refused::kind(numbers[0])))
}

/// The picture of an opened file in another setting.
pub(super) fn changed(
    file: &Input,
    archive: &Archive<&[u8]>,
    setting: Setting,
    most: Option<u32>,
) -> Result<Vec<u8>, Failure> {
    self::file(
        &file.path,
        setting.longest_file(archive.stored_count() as usize),
        most,
        |destination| archive.change_into(setting, destination),
        |refusal| refused::setting(refusal, setting),
    )
}
