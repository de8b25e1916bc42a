//! From an input to its file.

use side_by_side::forge::{field, set_field};

use crate::control::{self, Control, Form};
use crate::header;
use crate::tokens;

/// A picture to make a file of.
#[derive(Clone, Debug)]
pub struct Sketch {
    /// Kind, width and step.
    pub setting: [u32; 3],
    /// The dimension count.
    pub dimensions: u32,
    /// The extents.
    pub extents: [u32; 4],
    /// The empty word.
    pub empty: u32,
    /// The words of all cells.
    pub words: Vec<u32>,
}

/// The bytes after the control block, at least a header where the form needs one.
fn body(input: &[u8], form: Form) -> Vec<u8> {
    let mut body = input.get(control::LENGTH..).unwrap_or_default().to_vec();
    if form != Form::Raw && body.len() < header::LENGTH {
        body.resize(header::LENGTH, 0);
    }
    body
}

/// The most cells of a picture of the body.
fn most_cells(control: &Control) -> u32 {
    if control.large {
        header::MOST_CELLS
    } else {
        4096
    }
}

/// The file of an input of the forms raw and agreeing.
pub fn file(input: &[u8], control: &Control) -> Vec<u8> {
    let mut file = body(input, control.form);
    if control.form == Form::Agreeing {
        header::allow_setting(&mut file);
        let cells = header::allow_extents(&mut file, most_cells(control));
        header::agree(&mut file, cells);
    }
    file
}

/// The picture of an input of the forms made and patched.
pub fn sketch(input: &[u8], control: &Control) -> Sketch {
    let mut body = body(input, control.form);
    header::allow_setting(&mut body);
    let cells = header::allow_extents(&mut body, most_cells(control)) as usize;
    let empty = field(&body, 20);
    let tokens = &body[header::LENGTH..];
    Sketch {
        setting: [body[0], body[2], body[3]].map(u32::from),
        dimensions: u32::from(body[1]),
        extents: [4, 8, 12, 16].map(|at| field(&body, at)),
        empty,
        words: tokens::words(tokens, control.repeats, cells, empty),
    }
}

/// The file with bytes changed: one is combined with the first number of the patch, and the second number is added to the 4 bytes from
/// there on, if there are so many.
pub fn patched(mut file: Vec<u8>, control: &Control) -> Vec<u8> {
    let at = control.patch_at % file.len();
    file[at] ^= control.patch[0];
    if at + 4 <= file.len() {
        let added = control.patch[1] as i8;
        let number = field(&file, at).wrapping_add_signed(i32::from(added));
        set_field(&mut file, at, number);
    }
    file
}

/// The input of the form raw, or agreeing, whose body is the file that an input of the forms made and patched gives.
pub fn unfolded(input: &[u8], agreeing: bool) -> Option<Vec<u8>> {
    let control = Control::of(input);
    if matches!(control.form, Form::Raw | Form::Agreeing) || input.len() < control::LENGTH {
        return None;
    }
    let file = file_of_picture(&sketch(input, &control), &control)?;
    let mut unfolded = input[..control::LENGTH].to_vec();
    unfolded[0] = unfolded[0] & !3 | u8::from(agreeing);
    unfolded.extend(file);
    Some(unfolded)
}

/// The file that the second reading makes of a picture, patched if the form says so.
fn file_of_picture(sketch: &Sketch, control: &Control) -> Option<Vec<u8>> {
    let [kind, width, step] = sketch.setting;
    let setting = reader::Setting::new(kind, width, step);
    let made = reader::make(
        setting,
        sketch.dimensions,
        &sketch.extents,
        sketch.empty,
        &sketch.words,
        usize::MAX,
    );
    made.ok().map(|file| {
        if control.form == Form::Patched {
            patched(file, control)
        } else {
            file
        }
    })
}
