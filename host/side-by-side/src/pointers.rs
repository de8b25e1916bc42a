//! Forged files of kind 6: pointers to other jumps, at other places, or too many or too few.

use reader::Parsed;

use crate::forge::{field, set_field, Forged};
use crate::random::Random;

/// Places of a forged file of kind 6.
pub const POINTERS: [&str; 8] = [
    "to other jumps",
    "to positions",
    "to the numbers of jumps",
    "before the differences",
    "of another step",
    "left out",
    "one too many",
    "past the words' offset",
];

/// Whether an accepted file has pointers.
pub fn has(says: &Parsed) -> bool {
    says.setting.kind == 6 && says.stored() > 0
}

/// The bytes of the pointers of an accepted file; 0 in kinds that have none.
pub fn length(file: &[u8], says: &Parsed) -> usize {
    if has(says) {
        let jumps = field(file, 28) as usize;
        4 * jumps.div_ceil(says.setting.step as usize)
    } else {
        0
    }
}

/// A file of kind 6 with stored cells, taken apart at its pointers.
struct Pointed<'a> {
    file: &'a [u8],
    /// Where the pointers begin, and where the words do.
    from: usize,
    to: usize,
    /// The jumps for each pointer.
    step: usize,
    /// The rank of each jump.
    ranks: Vec<u32>,
}

impl Pointed<'_> {
    /// Takes an accepted file apart.
    fn of<'a>(file: &'a [u8], says: &Parsed) -> Pointed<'a> {
        let from = says.words_at - length(file, says);
        let width = says.setting.width as usize;
        let differences = file[field(file, 40) as usize..from].chunks(width);
        let jumps = (0..)
            .zip(differences)
            .filter(|(_, bytes)| bytes.iter().all(|&byte| byte == 0));
        Pointed {
            file,
            from,
            to: says.words_at,
            step: says.setting.step as usize,
            ranks: jumps.map(|(rank, _)| rank).collect(),
        }
    }

    /// The file with other pointers, whose words' offset and length agree with them.
    fn with(&self, pointers: &[u32]) -> Vec<u8> {
        let bytes: Vec<u8> = pointers
            .iter()
            .flat_map(|pointer| pointer.to_le_bytes())
            .collect();
        let words = &self.file[self.to..];
        let mut file = [&self.file[..self.from], &bytes, words].concat();
        set_field(&mut file, 44, (self.from + bytes.len()) as u32);
        let length = file.len() as u32;
        set_field(&mut file, 48, length);
        file
    }

    /// The pointers as they are.
    fn pointers(&self) -> Vec<u32> {
        self.ranks.iter().step_by(self.step).copied().collect()
    }

    /// The pointers, each to a jump some further on, the last jump where there is none.
    fn further(&self, by: usize) -> Vec<u32> {
        let last = self.ranks.len() - 1;
        let jumps = (0..=last).step_by(self.step);
        jumps.map(|jump| self.ranks[last.min(jump + by)]).collect()
    }

    /// The file with the pointers before the differences.
    fn swapped(&self) -> Vec<u8> {
        let second_at = field(self.file, 40) as usize;
        let mut file = self.file.to_vec();
        file[second_at..self.to].rotate_left(self.from - second_at);
        file
    }
}

/// One forged file of an accepted one that has pointers.
pub fn any(file: &[u8], says: &Parsed, random: &mut Random) -> Forged {
    let pointed = Pointed::of(file, says);
    let choice = random.below(POINTERS.len());
    let mut pointers = pointed.pointers();
    let forged = match choice {
        0 => pointed.with(&pointed.further(random.within(1, 3))),
        1 => {
            let positions = pointers.iter().map(|&rank| says.positions[rank as usize]);
            pointed.with(&positions.collect::<Vec<u32>>())
        }
        2 => {
            let jumps = (0..pointers.len()).map(|index| (index * pointed.step) as u32);
            pointed.with(&jumps.collect::<Vec<u32>>())
        }
        3 => pointed.swapped(),
        4 => of_another_step(&pointed, random),
        5 => {
            pointers.truncate(random.below(pointers.len()));
            pointed.with(&pointers)
        }
        6 => {
            let another = random.one_of(&pointed.ranks);
            pointers.insert(random.below(pointers.len() + 1), another);
            pointed.with(&pointers)
        }
        _ => {
            let mut file = file.to_vec();
            set_field(&mut file, 44, pointed.from as u32);
            file
        }
    };
    (format!("pointers: {}", POINTERS[choice]), forged)
}

/// The file with another step in the header, or with the pointers of another step; there may be as many of them.
fn of_another_step(pointed: &Pointed, random: &mut Random) -> Vec<u8> {
    let any = random.within(1, 255);
    let (more, less) = ((pointed.step + 1).min(255), (pointed.step - 1).max(1));
    let step = random.one_of(&[more, less, any]);
    if random.once_in(2) {
        let mut file = pointed.file.to_vec();
        file[3] = step as u8;
        return file;
    }
    let pointers: Vec<u32> = pointed.ranks.iter().step_by(step).copied().collect();
    pointed.with(&pointers)
}
