//! What came out for one file.

use std::ffi::OsStr;

use radar_archive::{Archive, Dimensions, Fault, Setting};

use crate::commands::manifest::is_manifest;
use crate::failure::Failure;
use crate::input::Input;
use crate::json::Object;
use crate::refused;

/// What came out for one file.
pub(super) enum Told<'a> {
    /// It is accepted.
    Accepted { path: &'a OsStr, facts: Facts },
    /// It is refused.
    Refused {
        path: &'a OsStr,
        fault: Fault,
        /// Nothing for a file that is too long to be read.
        length: Option<usize>,
        /// Whether it is a manifest.
        manifest: bool,
    },
    /// It could not be read.
    Unread { path: &'a OsStr, message: String },
}

impl<'a> Told<'a> {
    /// Reads and checks a file.
    pub(super) fn file(path: &'a OsStr) -> Result<Told<'a>, Failure> {
        let file = match Input::picture(path) {
            Ok(file) => file,
            Err(Failure::File { message, .. }) => return Ok(Told::unread(path, message)),
            Err(Failure::Refused { fault, .. }) => {
                return Ok(Told::Refused {
                    path,
                    fault,
                    length: None,
                    manifest: false,
                })
            }
            Err(failure) => return Err(failure),
        };
        Ok(match Archive::open(&file.bytes[..]) {
            Ok(archive) => Told::Accepted {
                path,
                facts: Facts::of(&archive),
            },
            Err(fault) => Told::Refused {
                path,
                fault,
                length: Some(file.bytes.len()),
                manifest: is_manifest(&file.bytes),
            },
        })
    }

    /// A file that could not be read.
    pub(super) fn unread(path: &'a OsStr, message: String) -> Told<'a> {
        Told::Unread { path, message }
    }

    pub(super) fn is_manifest(&self) -> bool {
        matches!(self, Told::Refused { manifest: true, .. })
    }

    pub(super) fn is_accepted(&self) -> bool {
        matches!(self, Told::Accepted { .. })
    }

    pub(super) fn path(&self) -> &OsStr {
        match self {
            Told::Accepted { path, .. } => path,
            Told::Refused { path, .. } => path,
            Told::Unread { path, .. } => path,
        }
    }

    /// What is told after the path.
    pub(super) fn sentence(&self) -> String {
        match self {
            Told::Accepted { .. } => "accepted".to_string(),
            Told::Refused { fault, .. } => format!("refused, {fault}"),
            Told::Unread { message, .. } => message.clone(),
        }
    }

    /// The same as an object.
    pub(super) fn object(&self) -> Object {
        let mut object = Object::new();
        object.path("path", self.path());
        object.truth("accepted", self.is_accepted());
        match self {
            Told::Accepted { facts, .. } => {
                object.number("number", 0).text("word", "accepted");
                facts.members(&mut object);
            }
            Told::Refused { fault, length, .. } => {
                refused::members(&mut object, fault);
                object.number_or_null("length", *length);
            }
            Told::Unread { message, .. } => {
                object.text("error", message);
            }
        }
        object
    }
}

/// What the header of an accepted file says, and its length.
#[derive(Clone, Copy, Debug, PartialEq, Eq)]
pub(super) struct Facts {
    setting: Setting,
    dimensions: Dimensions,
    cells: u32,
    empty: u32,
    stored: u32,
    length: usize,
}

impl Facts {
    fn of(archive: &Archive<&[u8]>) -> Facts {
        Facts {
            setting: archive.setting(),
            dimensions: archive.dimensions(),
            cells: archive.cells(),
            empty: archive.empty(),
            stored: archive.stored_count(),
            length: archive.bytes().len(),
        }
    }

    /// Puts them in an object.
    fn members(&self, object: &mut Object) {
        object
            .number("kind", self.setting.kind.number().into())
            .number("width", self.setting.width.into())
            .number("step", self.setting.step.into())
            .numbers("dimensions", self.dimensions.extents())
            .number("cells", self.cells.into())
            .number("empty", self.empty.into())
            .number("stored", self.stored.into())
            .number("length", self.length as u64);
    }
}
