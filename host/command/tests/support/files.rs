//! Pictures and their files, made by the plain second reading of the format.

use reader::{Refusal, Setting};

/// The words of the sample picture; its empty word is 0.
pub const SAMPLE: [u32; 12] = [0, 0, 7, 9, 0, 5, 0, 0, 0, 0, 300, 0];

/// The settings of M1 to M5, and that of the sample in kind 6.
pub const SETTINGS: [[u32; 3]; 6] = [
    [1, 0, 0],
    [2, 0, 0],
    [3, 1, 2],
    [4, 1, 0],
    [5, 0, 2],
    [6, 1, 2],
];

/// Settings of every kind, among them the ends of the ranges.
pub const ALL_KINDS: [[u32; 3]; 16] = [
    [1, 0, 0],
    [2, 0, 0],
    [3, 1, 1],
    [3, 2, 1],
    [3, 2, 2],
    [3, 2, 255],
    [4, 1, 0],
    [4, 2, 0],
    [5, 0, 2],
    [5, 0, 3],
    [5, 0, 17],
    [5, 0, 64],
    [6, 1, 1],
    [6, 1, 16],
    [6, 2, 3],
    [6, 2, 255],
];

/// A picture: extents, empty word, words.
#[derive(Clone)]
pub struct Picture {
    /// The extents, as many as the picture has dimensions.
    pub extents: Vec<u32>,
    /// The empty word.
    pub empty: u32,
    /// The words in row order.
    pub words: Vec<u32>,
}

impl Picture {
    /// The sample picture.
    pub fn sample() -> Picture {
        Picture::of(&[12], 0, SAMPLE.to_vec())
    }

    /// A picture of these extents.
    pub fn of(extents: &[u32], empty: u32, words: Vec<u32>) -> Picture {
        let extents = extents.to_vec();
        Picture {
            extents,
            empty,
            words,
        }
    }

    /// A picture in which about one cell in `every` is stored, some side by side.
    pub fn scattered(extents: &[u32], empty: u32, every: u32) -> Picture {
        let cells = extents.iter().product();
        let mut state = 0x9e37_79b9_7f4a_7c15 ^ u64::from(every);
        let words = (0..cells).map(|position: u32| {
            state ^= state << 13;
            state ^= state >> 7;
            state ^= state << 17;
            match (state >> 20) % u64::from(every) {
                0 => empty.wrapping_add(1 + (position % 1000)),
                _ => empty,
            }
        });
        Picture::of(extents, empty, words.collect())
    }

    /// The file in a setting of kind, width and step.
    pub fn file(&self, setting: [u32; 3]) -> Vec<u8> {
        let file = self.file_if_fit(setting);
        file.unwrap_or_else(|refusal| panic!("{setting:?}: {refusal:?}"))
    }

    /// The file in a setting, or the refusal.
    pub fn file_if_fit(&self, [kind, width, step]: [u32; 3]) -> Result<Vec<u8>, Refusal> {
        let mut extents = [1; 4];
        extents[..self.extents.len()].copy_from_slice(&self.extents);
        let count = self.extents.len() as u32;
        let setting = Setting::new(kind, width, step);
        reader::make(
            setting,
            count,
            &extents,
            self.empty,
            &self.words,
            usize::MAX,
        )
    }

    /// What `rank` prints of a position.
    pub fn rank_line(&self, position: usize) -> String {
        let stored = |word: &&u32| **word != self.empty;
        let before = self.words[..position].iter().filter(stored).count();
        match stored(&&self.words[position]) {
            true => format!("{before}\n"),
            false => format!("empty, {before} stored before\n"),
        }
    }

    /// The words, lowest byte first.
    pub fn raw(&self) -> Vec<u8> {
        raw(&self.words)
    }

    /// The extents as `--dims` takes them.
    pub fn dims(&self) -> String {
        let extents: Vec<_> = self.extents.iter().map(u32::to_string).collect();
        extents.join("x")
    }
}

/// Pictures of one to four dimensions: no cell stored, all, and some.
pub fn pictures() -> Vec<Picture> {
    vec![
        Picture::sample(),
        Picture::of(&[1], 0, vec![0]),
        Picture::of(&[1, 1, 1, 1], 5, vec![0]),
        Picture::of(&[12], 0, vec![0; 12]),
        Picture::of(&[4, 3], 0, vec![1; 12]),
        Picture::scattered(&[50, 60], 0, 2),
        Picture::scattered(&[5, 20, 30], 0xffff_ffff, 10),
        Picture::scattered(&[2, 5, 30, 40], 7, 200),
    ]
}

/// A setting as options.
pub fn options(setting: [u32; 3]) -> String {
    let [kind, width, step] = setting;
    format!("--kind {kind} --width {width} --step {step}")
}

/// Words, lowest byte first.
pub fn raw(words: &[u32]) -> Vec<u8> {
    words.iter().flat_map(|word| word.to_le_bytes()).collect()
}

/// A copy of a file with another 4-byte number at an offset.
pub fn with_field(file: &[u8], at: usize, value: u32) -> Vec<u8> {
    let mut copy = file.to_vec();
    copy[at..at + 4].copy_from_slice(&value.to_le_bytes());
    copy
}

/// A copy of a file with another byte at an offset.
pub fn with_byte(file: &[u8], at: usize, value: u8) -> Vec<u8> {
    let mut copy = file.to_vec();
    copy[at] = value;
    copy
}

/// Damaged files: the number that check gives, the byte concerned where there is one, the file.
pub fn damaged() -> Vec<(usize, Option<u32>, Vec<u8>)> {
    let m2 = Picture::sample().file(SETTINGS[1]);
    let m5 = Picture::sample().file(SETTINGS[4]);
    let m6 = Picture::sample().file(SETTINGS[5]);
    let longer = [&m2[..], &[0]].concat();
    let damaged = vec![
        (1, None, Vec::new()),
        (1, None, m2[..51].to_vec()),
        (2, Some(0), with_byte(&m2, 0, 0)),
        (2, Some(0), with_byte(&m2, 0, 7)),
        (3, Some(2), with_byte(&m2, 2, 1)),
        (3, Some(3), with_byte(&m5, 3, 65)),
        (4, Some(1), with_byte(&m2, 1, 5)),
        (4, Some(4), with_field(&m2, 4, 0)),
        (4, Some(4), with_field(&m2, 4, 16_777_217)),
        (4, Some(12), with_field(&m2, 12, 0)),
        (5, Some(24), with_field(&m2, 24, 13)),
        (5, Some(28), with_field(&m2, 28, 3)),
        (5, Some(44), with_field(&m6, 44, 60)),
        (5, Some(48), longer),
        (6, Some(60), with_field(&m2, 60, 3)),
        (6, Some(60), with_field(&m6, 60, 1)),
        (6, Some(64), with_field(&m2, 64, 12)),
        (6, Some(80), with_field(&m2, 80, 0)),
    ];
    for (number, _, file) in &damaged {
        let answer = reader::number(&reader::check(file));
        assert_eq!(answer as usize, *number, "{file:02x?}");
    }
    damaged
}

/// One damaged file for each number 1 to 6.
pub fn one_of_each() -> Vec<(usize, Vec<u8>)> {
    let mut files: Vec<(usize, Vec<u8>)> = Vec::new();
    for (number, _, file) in damaged() {
        if files.last().is_none_or(|(last, _)| *last != number) {
            files.push((number, file));
        }
    }
    files
}
