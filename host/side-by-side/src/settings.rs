//! Settings.

use crate::random::Random;

/// Kind, width and step.
pub type Setting = [u32; 3];

/// All 1,087 settings that are allowed.
pub fn all() -> Vec<Setting> {
    let mut all = vec![[1, 0, 0], [2, 0, 0], [4, 1, 0], [4, 2, 0]];
    for width in 1..=2 {
        all.extend((1..=255).map(|step| [3, width, step]));
        all.extend((1..=255).map(|step| [6, width, step]));
    }
    all.extend((2..=64).map(|step| [5, 0, step]));
    all
}

/// An allowed setting, each kind as often as another.
pub fn any(random: &mut Random) -> Setting {
    let width = random.within(1, 2) as u32;
    match random.below(6) {
        0 => [1, 0, 0],
        1 => [2, 0, 0],
        2 if random.once_in(2) => [3, width, random.within(1, 4) as u32],
        2 => [3, width, random.within(1, 255) as u32],
        3 => [4, width, 0],
        4 if random.once_in(2) => [5, 0, random.within(2, 4) as u32],
        4 => [5, 0, random.within(2, 64) as u32],
        _ if random.once_in(2) => [6, width, random.within(1, 4) as u32],
        _ => [6, width, random.within(1, 255) as u32],
    }
}

/// Any allowed setting of a kind.
pub fn any_of_kind(kind: u32, random: &mut Random) -> Setting {
    loop {
        let setting = any(random);
        if setting[0] == kind {
            return setting;
        }
    }
}

/// Three numbers that are mostly no setting.
pub fn wrong(random: &mut Random) -> Setting {
    let mut setting = any(random);
    let at = random.below(3);
    let word = random.word();
    setting[at] = random.one_of(&[
        0,
        1,
        2,
        3,
        6,
        7,
        8,
        64,
        65,
        255,
        256,
        257,
        258,
        259,
        260,
        261,
        262,
        1 << 31,
        u32::MAX,
        word,
    ]);
    setting
}

/// The setting as the types of the engine's crate take it; its calls take the three numbers. The kind is 1 to 6.
pub fn engine(setting: Setting) -> radar_archive::Setting {
    match radar_archive::Setting::try_from(setting) {
        Ok(setting) => setting,
        Err(refusal) => panic!("{setting:?}: {refusal}"),
    }
}

/// The setting as the reader takes it.
pub fn reader(setting: Setting) -> reader::Setting {
    reader::Setting::new(setting[0], setting[1], setting[2])
}
