//! Work on many things at a time, its results one by one in the order of the things.

use std::collections::VecDeque;
use std::num::NonZero;
use std::sync::atomic::{AtomicBool, Ordering::SeqCst};
use std::sync::mpsc::{channel, sync_channel, Receiver, Sender, SyncSender};
use std::sync::{Mutex, PoisonError};
use std::thread::{self, available_parallelism, Builder};

use crate::arguments::{Given, Opt};
use crate::failure::Failure;

/// The most that are worked on at a time.
const MOST: u32 = 64;

/// How many things are worked on at a time, and how many results may wait for their turn.
#[derive(Clone, Copy, Debug, PartialEq, Eq)]
pub(super) struct Jobs {
    count: usize,
    waiting: usize,
}

impl Jobs {
    /// The number that `--jobs` gives, 1 without it; so many results wait for each.
    pub(super) fn of(given: &Given, each: usize) -> Result<Jobs, Failure> {
        let count = match given.number(&Opt::JOBS)? {
            None => 1,
            Some(0) => available_parallelism().map_or(1, NonZero::get),
            Some(count) if count <= MOST => count as usize,
            Some(count) => {
                let message = format!("{count} is too many; 1 to {MOST} files at a time, or 0 for as many as the processors");
                return Err(given.bad_value(&Opt::JOBS, &message));
            }
        };
        let count = count.min(MOST as usize);
        let waiting = count * each;
        Ok(Jobs { count, waiting })
    }
}

/// A thing, and where its result goes.
type Task<'a, T, R> = (&'a T, SyncSender<R>);

/// Works on all things, and takes the results in the order of the things. Where one is not taken, the rest is left.
pub(super) fn in_order<'a, T: Sync, R: Send>(
    things: &'a [T],
    jobs: Jobs,
    work: impl Fn(&'a T) -> R + Sync,
    mut take: impl FnMut(R) -> Result<(), Failure>,
) -> Result<(), Failure> {
    if jobs.count == 1 {
        return things.iter().try_for_each(|thing| take(work(thing)));
    }
    let (sender, tasks) = channel();
    let (tasks, ended) = (Mutex::new(tasks), AtomicBool::new(false));
    thread::scope(|scope| {
        let worker = || work_on(&tasks, &ended, &work);
        let begin = |_: &usize| Builder::new().spawn_scoped(scope, worker).is_ok();
        let workers = (0..jobs.count.min(things.len())).take_while(begin).count();
        let taken = match workers {
            0 => things.iter().try_for_each(|thing| take(work(thing))),
            _ => hand_out(things, &sender, jobs.waiting, &mut take),
        };
        ended.store(true, SeqCst);
        drop(sender);
        taken
    })
}

/// Works on what is handed out, until there is no more.
fn work_on<'a, T, R>(
    tasks: &Mutex<Receiver<Task<'a, T, R>>>,
    ended: &AtomicBool,
    work: &impl Fn(&'a T) -> R,
) {
    loop {
        let task = tasks.lock().unwrap_or_else(PoisonError::into_inner).recv();
        match task {
            // Where nobody waits for the result any more, it is not missed.
            Ok((thing, put)) if !ended.load(SeqCst) => drop(put.send(work(thing))),
            _ => return,
        }
    }
}

/// Hands out the things, so many ahead of the result whose turn it is, and takes the results.
fn hand_out<'a, T, R>(
    things: &'a [T],
    sender: &Sender<Task<'a, T, R>>,
    waiting: usize,
    take: &mut impl FnMut(R) -> Result<(), Failure>,
) -> Result<(), Failure> {
    let mut turns = VecDeque::new();
    for thing in things {
        if turns.len() == waiting {
            next(&mut turns, take)?;
        }
        let (put, turn) = sync_channel(1);
        let _ = sender.send((thing, put));
        turns.push_back(turn);
    }
    while !turns.is_empty() {
        next(&mut turns, take)?;
    }
    Ok(())
}

/// Takes the result whose turn it is. Where its worker panicked all is left, and the panic is handed on by the scope.
fn next<R>(
    turns: &mut VecDeque<Receiver<R>>,
    take: &mut impl FnMut(R) -> Result<(), Failure>,
) -> Result<(), Failure> {
    match turns.pop_front().map(|turn| turn.recv()) {
        Some(Ok(result)) => take(result),
        _ => Err(Failure::Pipe),
    }
}

#[cfg(test)]
mod tests {
    use super::*;
    use std::sync::atomic::AtomicUsize;
    use std::time::Duration;

    /// So many jobs, and so many results that wait.
    fn jobs(count: usize, waiting: usize) -> Jobs {
        Jobs { count, waiting }
    }

    #[test]
    fn results_come_in_order_and_few_wait() {
        let things: Vec<usize> = (0..500).collect();
        let (begun, mut taken) = (AtomicUsize::new(0), Vec::new());
        let slow_first = |thing: &usize| {
            begun.fetch_add(1, SeqCst);
            if thing % 100 == 0 {
                thread::sleep(Duration::from_millis(20));
            }
            *thing
        };
        let take = |result| {
            taken.push(result);
            let ahead = begun.load(SeqCst) - taken.len();
            assert!(ahead < 10, "{ahead}");
            Ok(())
        };
        in_order(&things, jobs(4, 10), slow_first, take).unwrap();
        assert_eq!(taken, things);
    }

    #[test]
    fn what_is_not_taken_ends_the_work() {
        let things: Vec<usize> = (0..10_000).collect();
        let begun = AtomicUsize::new(0);
        let work = |_: &usize| begun.fetch_add(1, SeqCst);
        let ended = in_order(&things, jobs(4, 8), work, |_| Err(Failure::Pipe));
        assert_eq!(ended, Err(Failure::Pipe));
        assert!(begun.load(SeqCst) <= 8);
    }

    #[test]
    #[should_panic(expected = "a scoped thread panicked")]
    fn a_panic_is_no_standstill() {
        let panics = |thing: &usize| assert_ne!(*thing, 7, "meant by the test");
        let _ = in_order(&Vec::from_iter(0..100), jobs(2, 4), panics, |()| Ok(()));
    }
}
