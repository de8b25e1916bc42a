//! How the program was started: whether standard input and output were closed.
//!
//! The runtime opens /dev/null in the place of a closed stream before `main`, so the question is asked before the runtime starts.

use std::ffi::c_int;
use std::sync::atomic::{AtomicBool, Ordering::SeqCst};

/// Standard input and output.
const INPUT: c_int = 0;
const OUTPUT: c_int = 1;

/// Asks `fcntl` for the flags of a descriptor, which only an open one has.
const FLAGS: c_int = 1;

extern "C" {
    fn fcntl(descriptor: c_int, operation: c_int, ...) -> c_int;
}

/// Whether standard input was closed.
static INPUT_CLOSED: AtomicBool = AtomicBool::new(false);
/// Whether standard output was closed.
static OUTPUT_CLOSED: AtomicBool = AtomicBool::new(false);

/// The functions of this section are called before the runtime starts.
#[used]
#[link_section = ".init_array"]
static FIRST: extern "C" fn() = look;

/// Looks which of the two is closed.
extern "C" fn look() {
    for (descriptor, closed) in [(INPUT, &INPUT_CLOSED), (OUTPUT, &OUTPUT_CLOSED)] {
        // SAFETY: the call takes plain numbers, and changes nothing.
        let is_closed = unsafe { fcntl(descriptor, FLAGS) } < 0;
        closed.store(is_closed, SeqCst);
    }
}

/// Whether standard input was closed when the program was started.
pub fn input_closed() -> bool {
    INPUT_CLOSED.load(SeqCst)
}

/// Whether standard output was closed when the program was started.
pub fn output_closed() -> bool {
    OUTPUT_CLOSED.load(SeqCst)
}
