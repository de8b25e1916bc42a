//! Refused files with the number and the sentence on each.

use radar_archive::diagnosis::{first_fault, of};
use radar_archive::{calls, Archive, Fault, Refusal};

use crate::files::{sample, with_byte, with_field};
use crate::{fields, header, positions, runs};

/// A refused file, its number, and the message and the byte that the diagnosis gives.
pub struct Row(pub Vec<u8>, pub u32, pub &'static str, pub Option<usize>);

/// A sample file by its kind with another number at an offset, and the message and the byte that the diagnosis gives.
pub type Change = (u32, usize, u32, &'static str, usize);

/// A row of number 5.
pub fn five(file: Vec<u8>, message: &'static str, byte: usize) -> Row {
    Row(file, 5, message, Some(byte))
}

/// A row of number 6.
pub fn six(file: Vec<u8>, message: &'static str, byte: usize) -> Row {
    Row(file, 6, message, Some(byte))
}

/// The rows of changed numbers of 4 bytes.
pub fn of_fields(number: u32, changes: &'static [Change]) -> Vec<Row> {
    let rows = changes.iter().map(|&(kind, at, value, message, byte)| {
        let file = with_field(sample(kind), at, value);
        Row(file, number, message, Some(byte))
    });
    rows.collect()
}

/// The rows of changed bytes.
pub fn of_bytes(number: u32, changes: &'static [Change]) -> Vec<Row> {
    let rows = changes.iter().map(|&(kind, at, value, message, byte)| {
        let file = with_byte(sample(kind), at, value as u8);
        Row(file, number, message, Some(byte))
    });
    rows.collect()
}

/// The rows of all numbers.
pub fn all() -> Vec<Row> {
    let mut rows = header::rows();
    rows.extend(fields::rows());
    rows.extend(runs::rows());
    rows.extend(positions::rows());
    rows
}

#[test]
fn each_sentence_word_for_word() {
    for Row(file, number, message, byte) in all() {
        let refusal = Refusal::of_number(number).unwrap();
        let fault = Fault {
            refusal,
            message: message.to_string(),
            byte,
        };
        assert_eq!(of(&file, refusal), fault);
        assert_eq!(calls::check(&file), Err(refusal), "{message}");
        assert_eq!(first_fault(&file).as_ref(), Some(&fault));
        assert_eq!(Archive::open(file).map(|_| ()), Err(fault));
    }
}

/// Where the number is not the one that the tests here find, the sentence is the signal list's.
#[test]
fn the_sentence_of_another_number() {
    let accepted = sample(2);
    let short = vec![2; 51];
    for file in [accepted, short] {
        let fault = of(&file, Refusal::Body);
        assert_eq!(fault.to_string(), Refusal::Body.to_string());
        assert_eq!(fault.message, "no picture has these bytes");
        assert_eq!(fault.byte, None);
    }
}
