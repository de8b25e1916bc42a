//! What follows from the documents and is easily got wrong: one test for each line of part B of the readings that document 01 or S-7 of
//! document 02 bears, and one for S-9. (The lines on kinds 7 and 8, permits, the search and the summary belong to later requests.)

mod calls;
#[path = "../common/mod.rs"]
mod common;
mod header;
mod offsets;
mod pointers;
mod runs;

const RUNS: [u32; 3] = [1, 0, 0];
const POSITIONS: [u32; 3] = [2, 0, 0];
/// The stored words of the sample.
const WORDS: [u32; 4] = [7, 9, 5, 300];
