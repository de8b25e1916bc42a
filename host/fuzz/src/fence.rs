//! Memory between two pages that nobody may touch: reading or writing past what was lent ends the process.

use std::ffi::c_void;
use std::ptr::null_mut;

const PAGE: usize = 4096;
const READ_AND_WRITE: i32 = 3;
const PRIVATE_AND_ANONYMOUS: i32 = 0x22;

extern "C" {
    fn mmap(
        at: *mut c_void,
        len: usize,
        access: i32,
        flags: i32,
        fd: i32,
        from: i64,
    ) -> *mut c_void;
    fn mprotect(at: *mut c_void, len: usize, access: i32) -> i32;
    fn munmap(at: *mut c_void, len: usize) -> i32;
}

/// Pages with a forbidden page on either side.
#[derive(Debug)]
pub struct Fence {
    /// The first forbidden page.
    start: *mut u8,
    /// The bytes between the forbidden pages.
    room: usize,
}

impl Fence {
    /// A fence around at least so many bytes.
    pub fn around(bytes: usize) -> Fence {
        let room = bytes.div_ceil(PAGE).max(1) * PAGE;
        let whole = room + 2 * PAGE;
        // Sound: a new mapping of its own, which nothing else refers to.
        let start = unsafe {
            mmap(
                null_mut(),
                whole,
                READ_AND_WRITE,
                PRIVATE_AND_ANONYMOUS,
                -1,
                0,
            )
        };
        assert!(start as isize != -1, "no memory for a fence");
        let start: *mut u8 = start.cast();
        // Sound: both pages lie inside the mapping.
        let forbidden =
            unsafe { [start, start.add(PAGE + room)].map(|at| mprotect(at.cast(), PAGE, 0)) };
        assert_eq!(forbidden, [0, 0], "a page cannot be forbidden");
        Fence { start, room }
    }

    /// A copy of the bytes that begins right after the first forbidden page, or ends right before the last one.
    pub fn lend(&mut self, bytes: &[u8], leading: bool) -> &[u8] {
        assert!(bytes.len() <= self.room, "the fence is too narrow");
        let from = if leading { 0 } else { self.room - bytes.len() };
        // Sound: the room is mapped, readable, writable and zeroed, and this borrow is the only one.
        let room = unsafe { std::slice::from_raw_parts_mut(self.start.add(PAGE), self.room) };
        let lent = &mut room[from..from + bytes.len()];
        lent.copy_from_slice(bytes);
        lent
    }
}

impl Drop for Fence {
    fn drop(&mut self) {
        // Sound: the mapping was made in `around`, and no borrow outlives the fence.
        unsafe { munmap(self.start.cast(), self.room + 2 * PAGE) };
    }
}
