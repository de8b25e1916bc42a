//! Every call on bytes that the second reading refuses.

use radar_archive::{calls, Position};
use reader::Parsed;
use side_by_side::forge::field;
use side_by_side::sides::{Sides, Wanted};

use crate::control::{so_many, Control};
use crate::header;

/// The calls: each gives the number of the check, and a lookup of the opened file an answer in range.
pub fn calls_on(sides: &mut Sides, file: &[u8], refused: &Result<Parsed, u32>, control: &Control) {
    let Err(number) = *refused else { return };
    for position in [control.position, control.position & 0xff, 0] {
        for rank in [control.rank, control.rank & 0xff] {
            sides.opened_over_any(file, position, rank);
        }
    }
    sides.cell(file, refused, control.position);
    sides.rank(file, refused, control.position);
    sides.position(file, refused, control.rank);
    sides.expand(file, refused);
    let [low, high] = control.corners;
    sides.box_words(file, refused, &low, &high);
    sides.ranks(file, refused, control.range[0], control.range[1]);
    let copy = file.to_vec();
    sides.shorter(file, &copy);
    destinations(sides, file, number, control);
    if file.len() >= header::LENGTH {
        dimensions(sides, file, control);
    }
}

/// The calls that take dimensions, with those of the header.
fn dimensions(sides: &mut Sides, file: &[u8], control: &Control) {
    let count = u32::from(file[1]);
    let extents = [4, 8, 12, 16].map(|at| field(file, at));
    let extents = so_many(extents, control.lent[2]);
    let at = so_many(control.corners[0], control.lent[0]);
    sides.coordinates_position(count, &extents, &at);
    sides.position_coordinates(count, &extents, control.position);
    let setting = [file[0], file[2], file[3]].map(u32::from);
    let words = [control.word; 3];
    sides.make(
        setting,
        count,
        &extents,
        field(file, 20),
        &words[..control.range[0] as usize % 4],
    );
}

/// Write and change into a destination longer than the file.
fn destinations(sides: &mut Sides, file: &[u8], number: u32, control: &Control) {
    let wanted: Wanted<u8> = Err(number);
    let room = file.len() + 64;
    let write = |dst: &mut [u8]| {
        let answer = calls::write(file, Position(control.position), control.word, dst);
        answer.map_or_else(|refusal| refusal.number(), |_| 0)
    };
    sides.put_out_in("write", &wanted, room, write, || {
        format!("{control:?} {file:?}")
    });
    let change = |dst: &mut [u8]| {
        let answer = calls::change(file, control.setting, dst);
        answer.map_or_else(|refusal| refusal.number(), |_| 0)
    };
    sides.put_out_in("change", &wanted, room, change, || {
        format!("{control:?} {file:?}")
    });
}
