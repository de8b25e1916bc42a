//! Patterns of file names, as the C library reads them.

use std::ffi::{c_char, c_int, CString, OsStr};
use std::os::unix::ffi::OsStrExt;

/// A leading dot and a slash are bytes like others, and a backslash takes its meaning from what follows it.
const PLAIN: c_int = 0;

extern "C" {
    fn fnmatch(pattern: *const c_char, name: *const c_char, flags: c_int) -> c_int;
}

/// A pattern of file names: `*`, `?` and `[...]` of the shell.
///
/// The program sets no locale, so `?` and `[...]` stand for one byte wherever it runs.
#[derive(Clone, Debug, PartialEq, Eq)]
pub struct Glob(CString);

impl Glob {
    /// The pattern that a text writes, or what is wrong with it: one that no file's name can match.
    ///
    /// ```
    /// # use std::ffi::OsStr;
    /// # use command::glob::Glob;
    /// assert!(Glob::of(OsStr::new("*.radar")).is_ok());
    /// assert!(Glob::of(OsStr::new("")).is_err());
    /// assert!(Glob::of(OsStr::new("sea/*")).is_err());
    /// ```
    pub fn of(text: &OsStr) -> Result<Glob, String> {
        if text.is_empty() {
            return Err("'' matches no name".to_string());
        }
        if text.as_bytes().contains(&b'/') {
            let message =
                "matches no name: it is held against the last part of a path, which has no '/'";
            return Err(format!("{} {message}", crate::shown::quoted(text)));
        }
        let pattern = CString::new(text.as_bytes());
        pattern
            .map(Glob)
            .map_err(|_| "a name has no zero byte".to_string())
    }

    /// Whether a name matches.
    ///
    /// ```
    /// # use std::ffi::OsStr;
    /// # use command::glob::Glob;
    /// let glob = Glob::of(OsStr::new("[ab]*.radar"))?;
    /// assert!(glob.matches(OsStr::new("a1.radar")));
    /// assert!(!glob.matches(OsStr::new("c1.radar")));
    /// # Ok::<(), String>(())
    /// ```
    pub fn matches(&self, name: &OsStr) -> bool {
        let Ok(name) = CString::new(name.as_bytes()) else {
            return false;
        };
        // SAFETY: both are strings that end with a zero byte and live through the call, which only reads them.
        unsafe { fnmatch(self.0.as_ptr(), name.as_ptr(), PLAIN) == 0 }
    }
}
