//! The functions of include/radar_archive.h, each behind a safe one over slices.
//!
//! Why each call here is sound: the engine is total, so no argument has to be checked first; it reads and writes only the elements
//! that a pointer and its length name; a shared slice is only read; and the borrows keep a destination apart from the other slices.

/// The declarations of include/radar_archive.h.
mod raw {
    extern "C" {
        pub fn ra_check(file: *const u8, len: usize) -> u32;
        pub fn ra_make(
            kind: u32,
            width: u32,
            step: u32,
            dims: u32,
            extents: *const u32,
            extents_len: usize,
            empty: u32,
            words: *const u32,
            words_len: usize,
            dst: *mut u8,
            dst_len: usize,
        ) -> u32;
        pub fn ra_write(
            file: *const u8,
            len: usize,
            position: u32,
            word: u32,
            dst: *mut u8,
            dst_len: usize,
        ) -> u32;
        pub fn ra_change(
            file: *const u8,
            len: usize,
            kind: u32,
            width: u32,
            step: u32,
            dst: *mut u8,
            dst_len: usize,
        ) -> u32;
        pub fn ra_info(file: *const u8, len: usize, dst: *mut u32, dst_len: usize) -> u32;
        pub fn ra_expand(file: *const u8, len: usize, dst: *mut u32, dst_len: usize) -> u32;
        pub fn ra_cell(file: *const u8, len: usize, position: u32) -> u64;
        pub fn ra_rank(file: *const u8, len: usize, position: u32) -> u64;
        pub fn ra_position(file: *const u8, len: usize, rank: u32) -> u64;
        pub fn ra_coordinates_position(
            dims: u32,
            extents: *const u32,
            extents_len: usize,
            at: *const u32,
            at_len: usize,
        ) -> u64;
        pub fn ra_position_coordinates(
            dims: u32,
            extents: *const u32,
            extents_len: usize,
            position: u32,
            dst: *mut u32,
            dst_len: usize,
        ) -> u32;
        pub fn ra_box(
            file: *const u8,
            len: usize,
            low: *const u32,
            low_len: usize,
            high: *const u32,
            high_len: usize,
            dst: *mut u32,
            dst_len: usize,
        ) -> u32;
        pub fn ra_ranks(file: *const u8, len: usize, from: u32, to: u32) -> u64;
        pub fn ra_shorter(a: *const u8, a_len: usize, b: *const u8, b_len: usize) -> u64;
        pub fn ra_opened_cell(file: *const u8, len: usize, position: u32) -> u64;
        pub fn ra_opened_rank(file: *const u8, len: usize, position: u32) -> u64;
        pub fn ra_opened_position(file: *const u8, len: usize, rank: u32) -> u64;
    }
}

pub fn check(file: &[u8]) -> u32 {
    unsafe { raw::ra_check(file.as_ptr(), file.len()) }
}

pub fn make(
    setting: [u32; 3],
    dims: u32,
    extents: &[u32],
    empty: u32,
    words: &[u32],
    dst: &mut [u8],
) -> u32 {
    let [kind, width, step] = setting;
    unsafe {
        raw::ra_make(
            kind,
            width,
            step,
            dims,
            extents.as_ptr(),
            extents.len(),
            empty,
            words.as_ptr(),
            words.len(),
            dst.as_mut_ptr(),
            dst.len(),
        )
    }
}

pub fn write(file: &[u8], position: u32, word: u32, dst: &mut [u8]) -> u32 {
    unsafe {
        raw::ra_write(
            file.as_ptr(),
            file.len(),
            position,
            word,
            dst.as_mut_ptr(),
            dst.len(),
        )
    }
}

pub fn change(file: &[u8], setting: [u32; 3], dst: &mut [u8]) -> u32 {
    let [kind, width, step] = setting;
    unsafe {
        raw::ra_change(
            file.as_ptr(),
            file.len(),
            kind,
            width,
            step,
            dst.as_mut_ptr(),
            dst.len(),
        )
    }
}

pub fn info(file: &[u8], dst: &mut [u32]) -> u32 {
    unsafe { raw::ra_info(file.as_ptr(), file.len(), dst.as_mut_ptr(), dst.len()) }
}

pub fn expand(file: &[u8], dst: &mut [u32]) -> u32 {
    unsafe { raw::ra_expand(file.as_ptr(), file.len(), dst.as_mut_ptr(), dst.len()) }
}

pub fn cell(file: &[u8], position: u32) -> u64 {
    unsafe { raw::ra_cell(file.as_ptr(), file.len(), position) }
}

pub fn rank(file: &[u8], position: u32) -> u64 {
    unsafe { raw::ra_rank(file.as_ptr(), file.len(), position) }
}

pub fn position(file: &[u8], rank: u32) -> u64 {
    unsafe { raw::ra_position(file.as_ptr(), file.len(), rank) }
}

pub fn coordinates_position(dims: u32, extents: &[u32], at: &[u32]) -> u64 {
    unsafe {
        raw::ra_coordinates_position(dims, extents.as_ptr(), extents.len(), at.as_ptr(), at.len())
    }
}

pub fn position_coordinates(dims: u32, extents: &[u32], position: u32, dst: &mut [u32]) -> u32 {
    unsafe {
        raw::ra_position_coordinates(
            dims,
            extents.as_ptr(),
            extents.len(),
            position,
            dst.as_mut_ptr(),
            dst.len(),
        )
    }
}

pub fn box_words(file: &[u8], low: &[u32], high: &[u32], dst: &mut [u32]) -> u32 {
    unsafe {
        raw::ra_box(
            file.as_ptr(),
            file.len(),
            low.as_ptr(),
            low.len(),
            high.as_ptr(),
            high.len(),
            dst.as_mut_ptr(),
            dst.len(),
        )
    }
}

pub fn ranks(file: &[u8], from: u32, to: u32) -> u64 {
    unsafe { raw::ra_ranks(file.as_ptr(), file.len(), from, to) }
}

pub fn shorter(first: &[u8], second: &[u8]) -> u64 {
    unsafe { raw::ra_shorter(first.as_ptr(), first.len(), second.as_ptr(), second.len()) }
}

pub fn opened_cell(file: &[u8], position: u32) -> u64 {
    unsafe { raw::ra_opened_cell(file.as_ptr(), file.len(), position) }
}

pub fn opened_rank(file: &[u8], position: u32) -> u64 {
    unsafe { raw::ra_opened_rank(file.as_ptr(), file.len(), position) }
}

pub fn opened_position(file: &[u8], rank: u32) -> u64 {
    unsafe { raw::ra_opened_position(file.as_ptr(), file.len(), rank) }
}
