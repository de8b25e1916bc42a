//! Lays the engine and the reader side by side on many cases from a seed.
//!
//! Arguments: the seed, the pictures and the lists for all threads together. The last line is `N passed, M failed`: each case counts,
//! each disagreement and each count that is missing fails.

use std::panic::{catch_unwind, AssertUnwindSafe};
use std::process::ExitCode;
use std::thread;
use std::time::Instant;

use side_by_side::sides::Sides;
use side_by_side::tally::Tally;
use side_by_side::{cases, lists, settings};

const SEED: u64 = 20_020_401;
const PICTURES: usize = 3_600;
const LISTS: usize = 4_000;
const THREADS: usize = 2;

/// What one thread has met, and how many of its pictures and lists showed a disagreement.
#[derive(Default)]
struct Outcome {
    tally: Tally,
    failed: u64,
}

impl Outcome {
    /// The cases of one picture or list from its own seed. A disagreement ends it and is written to the standard error.
    fn one(&mut self, name: &str, seed: u64, cases: impl FnOnce(&mut Sides)) {
        let mut sides = Sides::new(seed);
        if catch_unwind(AssertUnwindSafe(|| cases(&mut sides))).is_err() {
            eprintln!("side by side: {name} of seed {seed} failed");
            self.failed += 1;
        }
        self.tally.add(&sides.tally);
    }
}

/// The pictures and lists whose number is the thread's.
fn run(seed: u64, thread: usize, pictures: usize, count: usize) -> Outcome {
    let all = settings::all();
    let mut outcome = Outcome::default();
    for index in (thread..pictures).step_by(THREADS) {
        let own = seed.wrapping_add(index as u64);
        outcome.one("a picture", own, |sides| cases::picture(sides, index, &all));
    }
    for index in (thread..count).step_by(THREADS) {
        let own = !seed.wrapping_add(index as u64);
        outcome.one("a list", own, lists::one);
    }
    outcome
}

fn main() -> ExitCode {
    let start = Instant::now();
    let mut arguments = std::env::args()
        .skip(1)
        .map(|argument| argument.parse::<u64>().ok());
    let mut next = |default: u64| arguments.next().flatten().unwrap_or(default);
    let seed = next(SEED);
    let (pictures, count) = (next(PICTURES as u64) as usize, next(LISTS as u64) as usize);
    println!("side by side: seed {seed}, {pictures} pictures, {count} lists");
    let threads: Vec<_> = (0..THREADS)
        .map(|thread| thread::spawn(move || run(seed, thread, pictures, count)))
        .collect();
    let mut tally = Tally::default();
    let mut failed = 0;
    for thread in threads {
        match thread.join() {
            Ok(outcome) => {
                tally.add(&outcome.tally);
                failed += outcome.failed;
            }
            Err(_) => failed += 1,
        }
    }
    print!("{}", tally.text());
    println!("seconds: {:.1}", start.elapsed().as_secs_f64());
    for missing in tally.missing() {
        println!("missing: {missing}");
        failed += 1;
    }
    println!("{} passed, {failed} failed", tally.cases());
    if failed == 0 {
        ExitCode::SUCCESS
    } else {
        ExitCode::FAILURE
    }
}
