//! JSON objects on one line.

use std::ffi::OsStr;
use std::os::unix::ffi::OsStrExt;

use crate::numbers;

/// An object that is being put together.
///
/// ```
/// # use std::ffi::OsStr;
/// # use command::json::Object;
/// let mut object = Object::new();
/// object.path("path", OsStr::new("a \"b\"")).number("stored", 4).null("byte").numbers("dimensions", &[3, 4]);
/// assert_eq!(object.line(), b"{\"path\":\"a \\\"b\\\"\",\"stored\":4,\"byte\":null,\"dimensions\":[3,4]}\n");
/// ```
#[derive(Clone, Debug)]
pub struct Object {
    text: Vec<u8>,
}

impl Default for Object {
    fn default() -> Object {
        Object::new()
    }
}

impl Object {
    /// An object without members.
    pub fn new() -> Object {
        Object {
            text: b"{".to_vec(),
        }
    }

    /// Puts a member's name.
    fn name(&mut self, name: &str) {
        if self.text.len() > 1 {
            self.text.push(b',');
        }
        string(&mut self.text, name);
        self.text.push(b':');
    }

    /// A member that is a text.
    pub fn text(&mut self, name: &str, value: &str) -> &mut Object {
        self.name(name);
        string(&mut self.text, value);
        self
    }

    /// A member that is a path. One that is not UTF-8 is lossy here and whole, as hexadecimal digits, in the member NAME_hex.
    pub fn path(&mut self, name: &str, value: &OsStr) -> &mut Object {
        self.text(name, &value.to_string_lossy());
        if value.to_str().is_none() {
            let digits: Vec<String> = value
                .as_bytes()
                .iter()
                .map(|byte| format!("{byte:02x}"))
                .collect();
            self.text(&format!("{name}_hex"), &digits.concat());
        }
        self
    }

    /// A member that is a number.
    pub fn number(&mut self, name: &str, value: u64) -> &mut Object {
        self.name(name);
        self.text.extend_from_slice(value.to_string().as_bytes());
        self
    }

    /// A member that is true or false.
    pub fn truth(&mut self, name: &str, value: bool) -> &mut Object {
        self.name(name);
        self.text.extend_from_slice(value.to_string().as_bytes());
        self
    }

    /// A member that is null.
    pub fn null(&mut self, name: &str) -> &mut Object {
        self.name(name);
        self.text.extend_from_slice(b"null");
        self
    }

    /// A member that is a number, or null where there is none.
    pub fn number_or_null(&mut self, name: &str, value: Option<usize>) -> &mut Object {
        match value {
            Some(value) => self.number(name, value as u64),
            None => self.null(name),
        }
    }

    /// A member that is a list of numbers.
    pub fn numbers(&mut self, name: &str, values: &[u32]) -> &mut Object {
        self.name(name);
        self.text.push(b'[');
        numbers::put_joined(&mut self.text, values, b',');
        self.text.push(b']');
        self
    }

    /// A member that is an object.
    pub fn object(&mut self, name: &str, value: &Object) -> &mut Object {
        self.name(name);
        self.text.extend_from_slice(&value.closed());
        self
    }

    /// A member that is a list of objects.
    pub fn objects(&mut self, name: &str, values: &[Object]) -> &mut Object {
        self.name(name);
        let texts: Vec<Vec<u8>> = values.iter().map(Object::closed).collect();
        self.text.push(b'[');
        self.text.extend_from_slice(&texts.join(&b','));
        self.text.push(b']');
        self
    }

    /// The object's text.
    fn closed(&self) -> Vec<u8> {
        let mut text = self.text.clone();
        text.push(b'}');
        text
    }

    /// The object as a line with its newline, handed over: no member is left in the object.
    pub fn line(&mut self) -> Vec<u8> {
        self.text.extend_from_slice(b"}\n");
        std::mem::replace(&mut self.text, b"{".to_vec())
    }
}

/// Puts a string in quotes.
fn string(text: &mut Vec<u8>, value: &str) {
    text.push(b'"');
    for character in value.chars() {
        match character {
            '"' => text.extend_from_slice(b"\\\""),
            '\\' => text.extend_from_slice(b"\\\\"),
            '\n' => text.extend_from_slice(b"\\n"),
            '\r' => text.extend_from_slice(b"\\r"),
            '\t' => text.extend_from_slice(b"\\t"),
            control if control < ' ' || control == '\u{7f}' => {
                text.extend_from_slice(format!("\\u{:04x}", control as u32).as_bytes());
            }
            other => text.extend_from_slice(other.encode_utf8(&mut [0; 4]).as_bytes()),
        }
    }
    text.push(b'"');
}
