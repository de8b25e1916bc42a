//! The target that libFuzzer calls, and its mutator.
#![no_main]

use std::slice::{from_raw_parts, from_raw_parts_mut};

extern "C" {
    fn LLVMFuzzerMutate(data: *mut u8, size: usize, max_size: usize) -> usize;
}

/// Tries one input. A panic cannot leave the function, so it ends the process, and libFuzzer keeps the input.
///
/// # Safety
///
/// `data` has `size` bytes that nobody writes during the call.
#[no_mangle]
pub unsafe extern "C" fn LLVMFuzzerTestOneInput(data: *const u8, size: usize) -> i32 {
    let input = if size == 0 {
        &[]
    } else {
        // Sound: as the caller owes.
        unsafe { from_raw_parts(data, size) }
    };
    fuzz::trial(input);
    0
}

/// Changes an input: now and then a made file is unfolded to its bytes; then libFuzzer's own mutations follow.
///
/// # Safety
///
/// `data` has `max_size` bytes that nobody else uses during the call; the first `size` of them are the input.
#[no_mangle]
pub unsafe extern "C" fn LLVMFuzzerCustomMutator(
    data: *mut u8,
    size: usize,
    max_size: usize,
    seed: u32,
) -> usize {
    // Sound: as the caller owes.
    let bytes = unsafe { from_raw_parts_mut(data, max_size) };
    let mut length = size;
    if seed % 8 == 0 {
        let unfolded = fuzz::input::unfolded(&bytes[..size], seed % 16 == 0);
        if let Some(unfolded) = unfolded.filter(|unfolded| unfolded.len() <= max_size) {
            length = unfolded.len();
            bytes[..length].copy_from_slice(&unfolded);
        }
    }
    // Sound: the bytes are those of the caller.
    unsafe { LLVMFuzzerMutate(data, length, max_size) }
}
