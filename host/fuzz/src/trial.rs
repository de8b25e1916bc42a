//! One input on both sides.

use std::cell::RefCell;

use side_by_side::forge::field;
use side_by_side::sides::Sides;

use crate::accepted::{self, Accepted};
use crate::control::{Control, Form};
use crate::fence::Fence;
use crate::header::{self, MOST_CELLS};
use crate::input;
use crate::refused;

/// The longest file that an input may give, in bytes.
const LONGEST: usize = 16 * MOST_CELLS as usize + 4096;

thread_local! {
    static FENCES: RefCell<[Fence; 2]> = RefCell::new([Fence::around(LONGEST), Fence::around(LONGEST)]);
}

/// Makes every call on the file that an input gives, on both sides. Panics on a difference, a touched guard or a changed destination of
/// a refused call; reading or writing past the lent file ends the process.
pub fn trial(input: &[u8]) {
    let control = Control::of(input);
    let mut sides = Sides::new(1);
    if let Some(file) = file(&mut sides, input, &control) {
        FENCES.with_borrow_mut(|fences| calls(&mut sides, &file, &control, fences));
    }
}

/// The file of an input, or none where none can be made. Making is compared too.
pub fn file(sides: &mut Sides, input: &[u8], control: &Control) -> Option<Vec<u8>> {
    match control.form {
        Form::Raw | Form::Agreeing => Some(input::file(input, control)),
        Form::Made | Form::Patched => {
            let sketch = input::sketch(input, control);
            let dimensions = sketch.dimensions;
            let made = sides.make(
                sketch.setting,
                dimensions,
                &sketch.extents,
                sketch.empty,
                &sketch.words,
            )?;
            if control.form == Form::Patched {
                Some(input::patched(made, control))
            } else {
                Some(made)
            }
        }
    }
}

/// The calls on a lent copy of the file, which no call may change.
fn calls(sides: &mut Sides, file: &[u8], control: &Control, fences: &mut [Fence; 2]) {
    if costly(file) && !control.huge {
        return;
    }
    let [first, second] = fences;
    let lent = first.lend(file, control.leading);
    let parsed = sides.check(lent);
    sides.info(lent, &parsed);
    match &parsed {
        Ok(says) if says.cells() > MOST_CELLS as usize => huge(sides, lent, &parsed, control),
        Ok(says) => {
            let accepted = Accepted {
                file: lent,
                parsed: &parsed,
                says,
                control,
            };
            accepted::calls_on(sides, &accepted, second);
        }
        Err(_) if costly(file) => {}
        Err(_) => refused::calls_on(sides, lent, &parsed, control),
    }
    assert!(lent == file, "a call changed the lent file");
}

/// The lookups of a file of very many cells.
fn huge(sides: &mut Sides, file: &[u8], parsed: &Result<reader::Parsed, u32>, control: &Control) {
    sides.cell(file, parsed, control.position);
    sides.rank(file, parsed, control.position);
    sides.position(file, parsed, control.rank);
}

/// The product of the extents that a header claims; 0 without a header.
pub fn claimed_cells(file: &[u8]) -> u128 {
    if file.len() < header::LENGTH {
        return 0;
    }
    let extents = [4, 8, 12, 16].map(|at| u128::from(field(file, at)));
    // Four numbers of 32 bits have a product of 128 bits.
    extents.iter().product()
}

/// Whether a reader of whole pictures takes long: very many cells, allowed, and a length that agrees.
fn costly(file: &[u8]) -> bool {
    let cells = claimed_cells(file);
    cells > u128::from(MOST_CELLS)
        && cells <= u128::from(reader::MOST_CELLS)
        && field(file, 48) as usize == file.len()
}
