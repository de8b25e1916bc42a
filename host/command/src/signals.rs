//! Signals that end the program: the temporary file and the progress bar are removed first.
//!
//! The handler calls only what may be called in one: `unlink`, `write`, `signal` and `raise`.

use std::ffi::{c_char, c_int, c_void, CString};
use std::os::unix::ffi::OsStrExt;
use std::path::Path;
use std::ptr;
use std::sync::atomic::{AtomicBool, AtomicI32, AtomicPtr, Ordering::SeqCst};
use std::sync::Once;

/// Hang-up, interrupt, termination, and a file past the limit of its size.
const CAUGHT: [c_int; 4] = [1, 2, 15, 25];

/// The end of a child.
const CHILD: c_int = 17;

/// The handlers that stand for what a signal does by itself, and for ignoring it.
const DEFAULT: usize = 0;
const IGNORED: usize = 1;

/// Carriage return, and erase to the end of the line.
pub const ERASE: &str = "\r\x1b[K";

extern "C" {
    fn signal(number: c_int, handler: usize) -> usize;
    fn raise(number: c_int) -> c_int;
    fn unlink(path: *const c_char) -> c_int;
    fn write(descriptor: c_int, bytes: *const c_void, length: usize) -> isize;
}

/// The temporary file to be removed, ended by a zero byte; null where there is none.
static TEMPORARY: AtomicPtr<c_char> = AtomicPtr::new(ptr::null_mut());
/// Whether a progress bar stands on standard error.
static BAR: AtomicBool = AtomicBool::new(false);
/// Whether signals wait.
static HELD: AtomicBool = AtomicBool::new(false);
/// The signal that waits; 0 for none.
static WAITING: AtomicI32 = AtomicI32::new(0);

/// Catches the signals that end the program. One that is ignored, as under nohup, stays ignored.
pub fn catch() {
    static ONCE: Once = Once::new();
    ONCE.call_once(|| {
        for number in CAUGHT {
            // SAFETY: `caught` is a handler of the type that `signal` wants, and it calls only what a handler may.
            unsafe {
                if signal(number, caught as *const () as usize) == IGNORED {
                    signal(number, IGNORED);
                }
            }
        }
    });
}

/// Lets children be waited for. Where the program was started with their ends ignored, the system forgets how they ended.
pub fn wait_for_children() {
    // SAFETY: the handler is one that the system knows.
    unsafe { signal(CHILD, DEFAULT) };
}

/// The handler.
extern "C" fn caught(number: c_int) {
    if HELD.load(SeqCst) {
        WAITING.store(number, SeqCst);
    } else {
        end(number);
    }
}

/// Removes temporary file and bar and ends the program by the signal.
fn end(number: c_int) {
    let path = TEMPORARY.load(SeqCst);
    // SAFETY: the path is null or a string that is never freed; the other calls take plain numbers and a constant.
    unsafe {
        if !path.is_null() {
            unlink(path);
        }
        if BAR.load(SeqCst) {
            write(2, ERASE.as_ptr().cast(), ERASE.len());
        }
        signal(number, DEFAULT);
        raise(number);
    }
}

/// While this lives, a signal waits.
#[derive(Debug)]
pub struct Held(());

/// Lets signals wait until what this gives is dropped.
pub fn hold() -> Held {
    HELD.store(true, SeqCst);
    Held(())
}

impl Drop for Held {
    fn drop(&mut self) {
        HELD.store(false, SeqCst);
        match WAITING.swap(0, SeqCst) {
            0 => {}
            number => end(number),
        }
    }
}

/// The file that a signal removes from now on. A path with a zero byte names no file.
pub fn watch(path: &Path) {
    if let Ok(path) = CString::new(path.as_os_str().as_bytes()) {
        // The handler may be reading an earlier path, so none is freed.
        TEMPORARY.store(path.into_raw(), SeqCst);
    }
}

/// A signal removes no file from now on.
pub fn forget() {
    TEMPORARY.store(ptr::null_mut(), SeqCst);
}

/// Whether a progress bar stands on standard error.
pub fn bar(stands: bool) {
    BAR.store(stands, SeqCst);
}
