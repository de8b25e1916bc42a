//! The parts of a file.

use crate::json::Object;

/// A part of a file.
#[derive(Clone, Debug, PartialEq, Eq)]
pub(super) struct Part {
    pub(super) name: &'static str,
    pub(super) offset: usize,
    pub(super) bytes: usize,
}

impl Part {
    /// The part as an object.
    pub(super) fn object(&self) -> Object {
        let mut object = Object::new();
        object
            .text("part", self.name)
            .number("offset", self.offset as u64)
            .number("bytes", self.bytes as u64);
        object
    }
}

/// The parts of an accepted file, those that its kind has.
pub(super) fn parts(file: &[u8]) -> Vec<Part> {
    let field = |at: usize| {
        let bytes = [file[at], file[at + 1], file[at + 2], file[at + 3]];
        u32::from_le_bytes(bytes) as usize
    };
    let (first, second, third) = match file[0] {
        1 => (Some("runs"), None, None),
        2 => (Some("positions"), None, None),
        3 => (Some("bases"), Some("offsets"), None),
        4 => (Some("jumps"), Some("differences"), None),
        5 => (Some("upper levels"), Some("level 0"), None),
        _ => (Some("jumps"), Some("differences"), Some("pointers")),
    };
    // The pointers of kind 6 stand in the second part, after as many differences as it counts.
    let second_end = match third {
        Some(_) => field(40) + usize::from(file[2]) * field(32),
        None => field(44),
    };
    let starts = [0, field(36), field(40), second_end, field(44), file.len()];
    let names = [Some("header"), first, second, third, Some("words")];
    let part = |(index, name): (usize, Option<&'static str>)| {
        Some(Part {
            name: name?,
            offset: starts[index],
            bytes: starts[index + 1] - starts[index],
        })
    };
    names.into_iter().enumerate().filter_map(part).collect()
}

#[cfg(test)]
mod tests {
    use super::parts;

    /// Name, offset and bytes of each part.
    fn found(file: &[u8]) -> Vec<(&'static str, usize, usize)> {
        let parts = parts(file).into_iter();
        parts
            .map(|part| (part.name, part.offset, part.bytes))
            .collect()
    }

    #[test]
    fn parts_of_samples() {
        let file = include_bytes!("../../../../../samples/m3.radar");
        let wanted = [
            ("header", 0, 52),
            ("bases", 52, 8),
            ("offsets", 60, 4),
            ("words", 64, 16),
        ];
        assert_eq!(found(file), wanted);
        let file = include_bytes!("../../../../../samples/m6.radar");
        let wanted = [
            ("header", 0, 52),
            ("jumps", 52, 4),
            ("differences", 56, 4),
            ("pointers", 60, 4),
            ("words", 64, 16),
        ];
        assert_eq!(found(file), wanted);
    }
}
