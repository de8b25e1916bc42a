//! A picture from tokens: gaps and runs.

/// The words of so many cells, from tokens gone through `repeats` times.
///
/// A token is two bytes. The low 4 bits of the first are a gap of empty cells, and 15 means that two more bytes give the gap; the high 4
/// bits and 1 are the cells stored after it. The second byte gives the words.
pub fn words(tokens: &[u8], repeats: usize, cells: usize, empty: u32) -> Vec<u32> {
    let mut words = vec![empty; cells];
    let mut at = 0;
    for _ in 0..repeats {
        let before = at;
        at = put(tokens, &mut words, at, empty);
        if at == before || at >= cells {
            break;
        }
    }
    words
}

/// Puts the cells of the tokens from a position on; gives the position after them.
fn put(tokens: &[u8], words: &mut [u32], from: usize, empty: u32) -> usize {
    let mut bytes = tokens.iter().copied();
    let mut at = from;
    while let (Some(token), Some(word)) = (bytes.next(), bytes.next()) {
        let mut gap = usize::from(token & 15);
        if gap == 15 {
            let (low, high) = (bytes.next().unwrap_or(0), bytes.next().unwrap_or(0));
            gap = usize::from(u16::from_le_bytes([low, high]));
        }
        at += gap;
        for index in 0..=u32::from(token >> 4) {
            let Some(cell) = words.get_mut(at) else {
                return at;
            };
            // Two words whose exclusive or is not 0 differ, so the cell is stored.
            *cell = empty ^ (1 + u32::from(word)).rotate_left(8 * index);
            at += 1;
        }
    }
    at
}
