//! Destinations that this crate lends to the engine.

use alloc::vec;
use alloc::vec::Vec;

use crate::Refusal;

/// A file put out in a destination of the longest length it may have, cut to its own.
pub(crate) fn put_out(
    longest: usize,
    call: impl FnOnce(&mut [u8]) -> Result<usize, Refusal>,
) -> Result<Vec<u8>, Refusal> {
    let mut file = vec![0; longest];
    let length = call(&mut file)?;
    file.truncate(length);
    file.shrink_to_fit();
    Ok(file)
}

/// The value of a call that is not refused for an accepted file.
pub(crate) fn accepted<T>(answer: Result<T, Refusal>) -> T {
    match answer {
        Ok(value) => value,
        Err(refusal) => panic!("the engine refused an accepted file: {refusal}"),
    }
}
