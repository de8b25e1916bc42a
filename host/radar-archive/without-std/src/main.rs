//! The crate `radar-archive` without the standard library: a file is made, opened, read, changed and refused on memory of this program.
//!
//! With the standard library anywhere below it, the program would have two panic handlers and would not build. Its exit status is 0
//! when the answers are right.
#![no_std]
#![no_main]

extern crate alloc;

use alloc::string::ToString;
use alloc::vec;
use core::alloc::{GlobalAlloc, Layout};
use core::cell::UnsafeCell;
use core::ffi::c_int;
use core::panic::PanicInfo;
use core::sync::atomic::{AtomicUsize, Ordering};

use radar_archive::{Archive, Dimensions, Fault, Picture, Position, Refusal, Setting};

extern "C" {
    fn abort() -> !;
}

/// The bytes that the program has for all that it allocates.
const ROOM: usize = 1 << 20;

/// Memory that is handed out once and not taken back.
struct Memory {
    bytes: UnsafeCell<[u8; ROOM]>,
    used: AtomicUsize,
}

// SAFETY: a byte belongs to one allocation only, since `used` never falls.
unsafe impl Sync for Memory {}

// SAFETY: each allocation is a part of `bytes` of its own, aligned as asked, or null where there is no room.
unsafe impl GlobalAlloc for Memory {
    unsafe fn alloc(&self, layout: Layout) -> *mut u8 {
        let most = layout.size() + layout.align();
        let start = self.used.fetch_add(most, Ordering::Relaxed);
        if most > ROOM || start > ROOM - most {
            return core::ptr::null_mut();
        }
        let first = self.bytes.get().cast::<u8>().wrapping_add(start);
        first.wrapping_add(first.align_offset(layout.align()))
    }

    unsafe fn dealloc(&self, _: *mut u8, _: Layout) {}
}

#[global_allocator]
static MEMORY: Memory = Memory {
    bytes: UnsafeCell::new([0; ROOM]),
    used: AtomicUsize::new(0),
};

#[panic_handler]
fn panicked(_: &PanicInfo) -> ! {
    // SAFETY: abort takes nothing and does not come back.
    unsafe { abort() }
}

/// The compiler's own library was built to unwind and names these two; a program that aborts on panic never calls them.
#[no_mangle]
extern "C" fn rust_eh_personality() {}
#[no_mangle]
extern "C" fn _Unwind_Resume() {}

/// Whether the crate's calls answer as they should.
fn answers() -> Result<bool, Refusal> {
    let words = vec![0, 0, 7, 9, 0, 5, 0, 0, 0, 0, 300, 0];
    let dimensions = Dimensions::of(&[3, 4])?;
    let picture = Picture {
        dimensions,
        empty: 0,
        words,
    };
    let mut file = picture.make(Setting::runs())?;
    let archive = Archive::open(&file)?;
    let found = archive.cell(Position(10)) == Ok(300)
        && archive.expand() == picture.words
        && archive.best().length == 76
        && archive.stored_cells().len() == 4;
    file[24] = 13;
    let told = match Archive::open(file) {
        Ok(_) => false,
        Err(fault) => is_right(&fault),
    };
    Ok(found && told)
}

/// Whether a fault is that of a file that claims 13 stored cells.
fn is_right(fault: &Fault) -> bool {
    fault.to_string() == "5 counts: the header says 13 stored cells of 12 cells (byte 24)"
}

/// The program.
#[no_mangle]
extern "C" fn main(_: c_int, _: *const *const u8) -> c_int {
    match answers() {
        Ok(true) => 0,
        _ => 1,
    }
}
