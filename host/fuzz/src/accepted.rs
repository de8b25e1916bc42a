//! Every call on a file that the second reading accepts.

use radar_archive::{calls, Position};
use reader::Parsed;
use side_by_side::settings;
use side_by_side::sides::Sides;

use crate::control::{so_many, Control};
use crate::fence::Fence;
use crate::points::{positions, ranks, reduced};

/// Pictures of more cells are tried with fewer calls.
const SMALL: usize = 1024;

/// The most cells of a box whose words are compared.
const LARGEST_BOX: u128 = 4096;

/// An accepted file with what the second reading says of it.
pub struct Accepted<'a> {
    /// The lent bytes.
    pub file: &'a [u8],
    /// What the second reading says.
    pub parsed: &'a Result<Parsed, u32>,
    /// The same, taken out.
    pub says: &'a Parsed,
    /// The arguments.
    pub control: &'a Control,
}

/// The calls on an accepted file; `fence` lends the second file of two.
pub fn calls_on(sides: &mut Sides, accepted: &Accepted, fence: &mut Fence) {
    lookups(sides, accepted);
    parts(sides, accepted);
    writes(sides, accepted);
    let wanted = accepted.control.setting;
    let changed_file = changed(sides, accepted, wanted);
    if accepted.says.cells() > SMALL {
        return;
    }
    if let Some(other) = changed_file {
        two_files(sides, accepted, &other, fence);
    }
    sides.expand(accepted.file, accepted.parsed);
    makes(sides, accepted);
    let settings = allowed_settings(wanted);
    let chosen = accepted.control.range[1] as usize % settings.len();
    for (index, setting) in settings.into_iter().enumerate() {
        let other = changed(sides, accepted, setting);
        if index == chosen {
            changed(sides, accepted, too_wide(setting, accepted.control));
            if let Some(other) = other {
                calls_on_changed(sides, accepted, &other);
            }
        }
    }
}

/// Allowed settings: each kind, and each width, with a step that a number gives.
fn allowed_settings([_, _, step]: [u32; 3]) -> [[u32; 3]; 9] {
    let (ranks, entries) = (1 + step % 255, 2 + step % 63);
    [
        [1, 0, 0],
        [2, 0, 0],
        [3, 1, ranks],
        [3, 2, ranks],
        [4, 1, 0],
        [4, 2, 0],
        [5, 0, entries],
        [6, 1, ranks],
        [6, 2, ranks],
    ]
}

/// A setting whose numbers are allowed but for one, which is allowed only in its lower bits.
fn too_wide(mut setting: [u32; 3], control: &Control) -> [u32; 3] {
    let index = (control.word % 3) as usize;
    setting[index] |= 1 << (8 + control.word / 3 % 24);
    setting
}

/// The lookups, with the complete check and without it.
fn lookups(sides: &mut Sides, accepted: &Accepted) {
    let Accepted {
        file,
        parsed,
        says,
        control,
    } = *accepted;
    let ranks = ranks(says, control);
    for (index, position) in positions(says, control).into_iter().enumerate() {
        sides.cell(file, parsed, position);
        sides.rank(file, parsed, position);
        sides.opened(file, says, position, ranks[index % ranks.len()]);
    }
    for rank in ranks {
        sides.position(file, parsed, rank);
        sides.opened(file, says, 0, rank);
    }
}

/// Box, ranges of ranks and coordinates.
fn parts(sides: &mut Sides, accepted: &Accepted) {
    let Accepted {
        file,
        parsed,
        says,
        control,
    } = *accepted;
    let dims = says.picture.dims;
    let corner = |at: [u32; 4]| {
        [0, 1, 2, 3].map(|index| reduced(at[index], dims.extents[index] as usize, control))
    };
    let (one, two) = (corner(control.corners[0]), corner(control.corners[1]));
    let low = [0, 1, 2, 3].map(|index| one[index].min(two[index]));
    let high = [0, 1, 2, 3].map(|index| one[index].max(two[index]));
    let words = (0..4).map(|index| u128::from(high[index] - low[index]) + 1);
    let outside = (0..4).any(|index| high[index] >= dims.extents[index]);
    if outside || words.product::<u128>() <= LARGEST_BOX {
        sides.box_words(file, parsed, &low, &high);
        let [one_long, two_long, _] = control.lent;
        sides.box_words(
            file,
            parsed,
            &so_many(one, one_long),
            &so_many(two, two_long),
        );
    }
    let end = says.stored() as u32;
    let [from, to] = control
        .range
        .map(|rank| reduced(rank, says.stored() + 2, control));
    for (from, to) in [(from, to), (to, from), (0, end), (end, end), (0, end + 1)] {
        sides.ranks(file, parsed, from, to);
    }
    let extents = so_many(dims.extents, control.lent[2]);
    sides.coordinates_position(dims.count, &extents, &so_many(one, control.lent[0]));
    let position = reduced(control.position, says.cells() + 1, control);
    sides.position_coordinates(dims.count, &extents, position);
}

/// Writes: a word and E at the position of the control block and at a stored cell.
fn writes(sides: &mut Sides, accepted: &Accepted) {
    let Accepted {
        file,
        says,
        control,
        ..
    } = *accepted;
    let position = reduced(control.position, says.cells() + 1, control);
    write(sides, file, position, control.word);
    if says.cells() > SMALL {
        return;
    }
    write(sides, file, position, says.picture.empty);
    let rank = reduced(control.rank, says.stored(), control) as usize;
    if let Some(&stored) = says.positions.get(rank) {
        write(sides, file, stored, says.picture.empty);
        write(sides, file, stored, control.word);
        write(sides, file, stored, says.picture.words[stored as usize]);
        write(sides, file, stored + 1, control.word);
    }
}

/// One write; where it is refused also with a long destination.
fn write(sides: &mut Sides, file: &[u8], position: u32, word: u32) {
    if sides.write(file, position, word).is_some() {
        return;
    }
    let wanted = reader::write(file, reader::Position(position), word, usize::MAX);
    let wanted = wanted.map_err(|refusal| refusal.number());
    let engine = |dst: &mut [u8]| {
        let answer = calls::write(file, Position(position), word, dst);
        answer.map_or_else(|refusal| refusal.number(), |_| 0)
    };
    let room = file.len() + 64;
    sides.put_out_in("write", &wanted, room, engine, || {
        format!("{word} at {position} of {file:?}")
    });
}

/// One change; where it is refused also with a long destination.
fn changed(sides: &mut Sides, accepted: &Accepted, setting: [u32; 3]) -> Option<Vec<u8>> {
    let file = accepted.file;
    let changed = sides.change(file, setting);
    if changed.is_none() {
        let wanted = reader::change(file, settings::reader(setting), usize::MAX);
        let wanted = wanted.map_err(|refusal| refusal.number());
        let engine = |dst: &mut [u8]| {
            let answer = calls::change(file, setting, dst);
            answer.map_or_else(|refusal| refusal.number(), |_| 0)
        };
        let room = 2 * file.len() + 64;
        sides.put_out_in("change", &wanted, room, engine, || {
            format!("to {setting:?} of {file:?}")
        });
    }
    changed
}

/// Make of the file's own picture, with the right number of words and with one fewer.
fn makes(sides: &mut Sides, accepted: &Accepted) {
    let picture = &accepted.says.picture;
    let (dims, words) = (picture.dims, &picture.words);
    let setting = accepted.control.setting;
    let extents = so_many(dims.extents, accepted.control.lent[2]);
    sides.make(setting, dims.count, &extents, picture.empty, words);
    let fewer = &words[..words.len() - 1];
    sides.make(setting, dims.count, &dims.extents, picture.empty, fewer);
}

/// Some calls on the file in another setting.
fn calls_on_changed(sides: &mut Sides, accepted: &Accepted, file: &[u8]) {
    let control = accepted.control;
    let parsed = sides.check(file);
    let Ok(says) = &parsed else {
        panic!("a changed file is refused: {file:?}");
    };
    let position = reduced(control.position, says.cells() + 1, control);
    let rank = reduced(control.rank, says.stored() + 1, control);
    sides.opened(file, says, position, rank);
    sides.rank(file, &parsed, position);
    sides.position(file, &parsed, rank);
    sides.expand(file, &parsed);
    write(sides, file, position, control.word);
}

/// The shorter of the file and another, in both orders, and of the file and the other with a byte changed.
fn two_files(sides: &mut Sides, accepted: &Accepted, other: &[u8], fence: &mut Fence) {
    let control = accepted.control;
    let lent = fence.lend(other, control.leading);
    sides.shorter(accepted.file, lent);
    sides.shorter(lent, accepted.file);
    let mut false_copy = other.to_vec();
    let at = control.patch_at % false_copy.len();
    false_copy[at] ^= control.patch[0];
    if costly(&false_copy) {
        return;
    }
    let lent = fence.lend(&false_copy, control.leading);
    sides.shorter(accepted.file, lent);
    sides.shorter(lent, accepted.file);
}

/// Whether a file of other extents than the one it was copied from may have very many cells.
fn costly(file: &[u8]) -> bool {
    crate::trial::claimed_cells(file) > u128::from(crate::header::MOST_CELLS)
}
