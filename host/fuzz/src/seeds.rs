//! The seeds of the search: the sample's files as they are, and pictures of a few textures in each kind.

use side_by_side::forge::set_field;

use crate::control;
use crate::header;

/// A seed: its name and its bytes.
pub type Seed = (String, Vec<u8>);

/// Bytes of the control block that differ from those of [`block`]: offset and value.
type Arguments = &'static [(usize, u8)];

/// The sample's cells as tokens; its last cell is empty.
const SAMPLE: &[u8] = &[0x12, 6, 0x01, 4, 0x04, 43];

/// The sample in the settings of M1 to M5, and in kind 6, with a byte changed: setting, and the arguments that patch.
const PATCHED: [([u8; 3], Arguments); 6] = [
    // The first run ends one cell later.
    ([1, 0, 0], &[(30, 52), (33, 1)]),
    // The last stored word is E.
    ([2, 0, 0], &[(30, 80), (32, 44)]),
    // The second base is one higher.
    ([3, 1, 2], &[(30, 56), (33, 1)]),
    // The first difference is 1.
    ([4, 1, 0], &[(30, 56), (32, 1)]),
    // An upper entry is one lower.
    ([5, 0, 2], &[(30, 60), (33, 255)]),
    // The pointer is one higher.
    ([6, 1, 2], &[(30, 60), (33, 1)]),
];

/// A picture in tokens, with its arguments.
struct Sketch {
    name: &'static str,
    setting: [u8; 3],
    extents: &'static [u32],
    empty: u32,
    repeats: u8,
    tokens: &'static [u8],
    arguments: Arguments,
}

/// A sketch, its empty word 0, its tokens gone through once.
const fn sketch(
    name: &'static str,
    setting: [u8; 3],
    extents: &'static [u32],
    tokens: &'static [u8],
) -> Sketch {
    Sketch {
        name,
        setting,
        extents,
        empty: 0,
        repeats: 1,
        tokens,
        arguments: &[],
    }
}

/// Stored at 2 and 257, and at 2 and 258.
const GAP_254: &[u8] = &[0x02, 1, 0x0f, 1, 254, 0];
const GAP_255: &[u8] = &[0x02, 1, 0x0f, 1, 255, 0];

/// The pictures.
const SKETCHES: [Sketch; 18] = [
    Sketch {
        empty: 7,
        repeats: 8,
        ..sketch("runs", [1, 0, 0], &[3, 40], &[0x21, 3, 0x03, 9])
    },
    Sketch {
        repeats: 20,
        // Three extents, not four: 3 * 3 + 2.
        arguments: &[(34, 11), (2, 2), (3, 0), (4, 0)],
        ..sketch("positions", [2, 0, 0], &[2, 5, 6], &[0x01, 200])
    },
    Sketch {
        repeats: 20,
        ..sketch("bases", [3, 1, 6], &[300], &[0x03, 1, 0x14, 2])
    },
    Sketch {
        arguments: &[(6, 0)],
        repeats: 9,
        ..sketch("bases_of_2_bytes", [3, 2, 5], &[40], &[0x02, 1])
    },
    Sketch {
        empty: u32::MAX,
        repeats: 64,
        ..sketch("step_255", [3, 2, 255], &[3000], &[0x05, 1])
    },
    sketch("unfit", [3, 1, 2], &[300], GAP_255),
    // Writing at 0 puts 3 and 259 in one group.
    Sketch {
        arguments: &[(6, 0)],
        ..sketch(
            "unfit_by_a_write",
            [3, 1, 2],
            &[300],
            &[0x12, 1, 0x0f, 1, 255, 0],
        )
    },
    sketch("difference_255", [4, 1, 0], &[300], GAP_254),
    // The setting too wide by the bits past the first byte is that of kind 4, in its width.
    Sketch {
        arguments: &[(10, 76), (20, 4)],
        ..sketch("jump_at_256", [4, 1, 0], &[300], GAP_255)
    },
    Sketch {
        arguments: &[(1, 0x80)],
        ..sketch(
            "jump_at_65536",
            [4, 2, 0],
            &[70_000],
            &[0x02, 1, 0x0f, 1, 255, 255],
        )
    },
    Sketch {
        empty: 1,
        repeats: 9,
        arguments: &[(26, 1), (27, 1), (28, 1), (29, 1)],
        ..sketch("two_levels", [5, 0, 2], &[2, 2, 3, 5], &[0x01, 5, 0x12, 6])
    },
    Sketch {
        repeats: 10,
        // Five coordinates of the low corner: 3 * 5.
        arguments: &[(34, 15)],
        ..sketch("three_levels", [5, 0, 3], &[10, 10], &[0x01, 5, 0x02, 6])
    },
    Sketch {
        repeats: 64,
        ..sketch("page_of_64", [5, 0, 64], &[400], &[0x01, 5])
    },
    // Changed to kind 1, of the same length.
    Sketch {
        arguments: &[(2, 1), (3, 0), (4, 0)],
        ..sketch("no_cell_stored", [5, 0, 2], &[12], &[])
    },
    // Seven jumps, two stored cells at each.
    Sketch {
        repeats: 7,
        ..sketch("pointers", [6, 1, 2], &[2000], &[0x1f, 3, 255, 0])
    },
    // Writing at 5 moves all pointers but the first.
    Sketch {
        repeats: 4,
        ..sketch(
            "pointer_for_each_jump",
            [6, 1, 1],
            &[30, 40],
            &[0x02, 1, 0x0f, 1, 255, 0],
        )
    },
    sketch("one_pointer", [6, 2, 255], &[300], GAP_255),
    Sketch {
        arguments: &[(1, 0x80)],
        repeats: 2,
        ..sketch(
            "pointers_of_2_bytes",
            [6, 2, 1],
            &[140_000],
            &[0x1f, 1, 255, 255],
        )
    },
];

/// A control block of a form, with arguments that reach something in a small picture.
fn block(form: u8, repeats: u8, arguments: Arguments) -> Vec<u8> {
    let mut block = vec![0; control::LENGTH];
    block[0] = form | (repeats - 1) << 2;
    block[2..5].copy_from_slice(&[4, 1, 3]);
    for &(at, value) in [(6, 5), (10, 77), (14, 1), (18, 1), (20, 3), (26, 8)]
        .iter()
        .chain(arguments)
    {
        block[at] = value;
    }
    block
}

/// A header of which the setting, the dimensions and E count.
fn header_of(setting: [u8; 3], extents: &[u32], empty: u32) -> Vec<u8> {
    let [kind, width, step] = setting;
    let mut bytes = vec![kind, extents.len() as u8, width, step];
    bytes.resize(header::LENGTH, 0);
    for index in 0..4 {
        let extent = extents.get(index).copied().unwrap_or(1);
        set_field(&mut bytes, 4 + 4 * index, extent);
    }
    set_field(&mut bytes, 20, empty);
    bytes
}

/// The first sample with extents whose product passes 32 bits.
fn product_past_32_bits(sample: &[u8]) -> Seed {
    let mut file = sample.to_vec();
    file[1] = 2;
    set_field(&mut file, 4, 65_536);
    set_field(&mut file, 8, 65_537);
    (
        "product_past_32_bits".to_string(),
        [block(0, 1, &[]), file].concat(),
    )
}

/// All seeds; `samples` are the files M1 to M5, and that of kind 6.
pub fn all(samples: &[Vec<u8>]) -> Vec<Seed> {
    let mut seeds: Vec<Seed> = samples
        .first()
        .map(|sample| product_past_32_bits(sample))
        .into_iter()
        .collect();
    for (number, sample) in (1..).zip(samples) {
        seeds.push((
            format!("sample_m{number}"),
            [block(0, 1, &[]), sample.clone()].concat(),
        ));
    }
    for (number, (setting, arguments)) in (1..).zip(PATCHED) {
        let parts = [
            block(3, 1, arguments),
            header_of(setting, &[12], 0),
            SAMPLE.to_vec(),
        ];
        seeds.push((format!("patched_m{number}"), parts.concat()));
    }
    for sketch in SKETCHES {
        let block = block(2, sketch.repeats, sketch.arguments);
        let header = header_of(sketch.setting, sketch.extents, sketch.empty);
        seeds.push((
            sketch.name.to_string(),
            [block, header, sketch.tokens.to_vec()].concat(),
        ));
    }
    seeds
}
