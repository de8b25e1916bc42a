//! The control block: the first bytes of an input, which choose the form of its file and the arguments of the calls.

/// The bytes of the control block.
pub const LENGTH: usize = 36;

/// How the body gives a file.
#[derive(Clone, Copy, Debug, PartialEq, Eq)]
pub enum Form {
    /// The body is the file.
    Raw,
    /// The body is the file once the setting and the extents are allowed and counts, offsets and length agree.
    Agreeing,
    /// The body is a header and a picture's tokens; the file is made of them.
    Made,
    /// As `Made`, with bytes of the file changed.
    Patched,
}

/// The control block, taken apart.
#[derive(Clone, Copy, Debug)]
pub struct Control {
    /// How the body gives a file.
    pub form: Form,
    /// Positions, ranks and coordinates are taken as they are, not reduced to what the file has.
    pub plain: bool,
    /// The file begins at a fence; otherwise it ends at one.
    pub leading: bool,
    /// A picture of the body may have some hundred thousand cells; otherwise it has some thousand at most.
    pub large: bool,
    /// A picture of very many cells is tried all the same.
    pub huge: bool,
    /// The tokens of a picture are gone through so often.
    pub repeats: usize,
    /// The setting that the file is changed to, perhaps no allowed one.
    pub setting: [u32; 3],
    /// A position.
    pub position: u32,
    /// A word to write.
    pub word: u32,
    /// A rank.
    pub rank: u32,
    /// A range of ranks.
    pub range: [u32; 2],
    /// The corners of a box.
    pub corners: [[u32; 4]; 2],
    /// How many numbers are lent as low corner, high corner and extents: mostly four.
    pub lent: [usize; 3],
    /// Where bytes are changed in a patched file.
    pub patch_at: usize,
    /// What the bytes there are combined with.
    pub patch: [u8; 2],
}

impl Control {
    /// The control block of an input; missing bytes are 0.
    pub fn of(input: &[u8]) -> Control {
        let mut block = [0; LENGTH];
        let length = input.len().min(LENGTH);
        block[..length].copy_from_slice(&input[..length]);
        let two = |at: usize| u32::from(u16::from_le_bytes([block[at], block[at + 1]]));
        let four = |at: usize| two(at) + (two(at + 2) << 16);
        let corner = |at: usize| [0, 1, 2, 3].map(|index| u32::from(block[at + index]));
        Control {
            form: form(block[0]),
            plain: block[1] & 1 != 0,
            leading: block[1] & 2 != 0,
            large: block[1] & 0x80 != 0,
            huge: block[1] >> 2 == 0x29,
            repeats: 1 + usize::from(block[0] >> 2),
            setting: setting(&block),
            position: four(6),
            word: four(10),
            rank: four(14),
            range: [two(18), two(20)],
            corners: [corner(22), corner(26)],
            lent: lent(block[34]),
            patch_at: two(30) as usize,
            patch: [block[32], block[33]],
        }
    }
}

/// How many numbers are lent in the three places: four, or as many as a byte says in one of them.
fn lent(byte: u8) -> [usize; 3] {
    let mut lent = [4; 3];
    if byte != 0 {
        lent[usize::from(byte) % 3] = usize::from(byte) / 3 % 7;
    }
    lent
}

/// So many of the numbers, which are gone through again where they are too few.
pub fn so_many(numbers: [u32; 4], count: usize) -> Vec<u32> {
    numbers.into_iter().cycle().take(count).collect()
}

/// The form that the first byte says.
fn form(byte: u8) -> Form {
    match byte & 3 {
        0 => Form::Raw,
        1 => Form::Agreeing,
        2 => Form::Made,
        _ => Form::Patched,
    }
}

/// The setting of the block: three bytes, made wider than a byte by the bits of a fourth.
fn setting(block: &[u8; LENGTH]) -> [u32; 3] {
    let widen = block[5];
    [0, 1, 2].map(|index| {
        let by_256 = u32::from(widen >> index & 1) << 8;
        let by_half = u32::from(widen >> (index + 3) & 1) << 31;
        u32::from(block[2 + index]) + by_256 + by_half
    })
}
