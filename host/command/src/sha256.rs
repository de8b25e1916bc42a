//! SHA-256 sums, by the program `sha256sum` of coreutils as a child process.
//!
//! A thread of its own feeds the child, and no more is read of what it prints than its line has, so that a child that prints too early or
//! too much stops nobody. The child is always waited for.

use std::fmt;
use std::io::{self, Read, Write};
use std::process::{Child, ChildStdin, Command, ExitStatus, Stdio};
use std::thread;

use crate::failure::{reason, Failure};
use crate::signals;

/// The program.
const PROGRAM: &str = "sha256sum";

/// The hexadecimal digits of a sum.
const DIGITS: usize = 64;

/// The most that is read of what the program prints; its line has 68 bytes.
const MOST_PRINTED: u64 = 1024;

/// The bytes that are read at once of what is handed on.
const PIECE: usize = 1 << 16;

/// A text whose sum is published (FIPS 180), and the sum.
const KNOWN: &[u8] = b"abc";
const KNOWN_SUM: &str = "ba7816bf8f01cfea414140de5dae2223b00361a396177a9cb410ff61f20015ad";

/// A sum of 256 bits.
#[derive(Clone, Copy, Debug, PartialEq, Eq)]
pub struct Sum([u8; DIGITS / 2]);

impl Sum {
    /// The sum of 64 hexadecimal digits.
    ///
    /// ```
    /// # use command::sha256::Sum;
    /// let digits = "0123456789abcdef".repeat(4);
    /// assert_eq!(Sum::of_digits(digits.as_bytes()).map(|sum| sum.to_string()), Some(digits.clone()));
    /// assert_eq!(Sum::of_digits(digits.to_uppercase().as_bytes()), Sum::of_digits(digits.as_bytes()));
    /// assert_eq!(Sum::of_digits(&digits.as_bytes()[1..]), None);
    /// assert_eq!(Sum::of_digits(digits.replace('f', "g").as_bytes()), None);
    /// assert_eq!(Sum::of_digits(digits.replace("01", "+1").as_bytes()), None);
    /// ```
    pub fn of_digits(digits: &[u8]) -> Option<Sum> {
        if digits.len() != DIGITS {
            return None;
        }
        let mut bytes = [0; DIGITS / 2];
        for (byte, pair) in bytes.iter_mut().zip(digits.chunks_exact(2)) {
            let digit = |at: usize| char::from(pair[at]).to_digit(16);
            *byte = (16 * digit(0)? + digit(1)?) as u8;
        }
        Some(Sum(bytes))
    }
}

impl fmt::Display for Sum {
    fn fmt(&self, f: &mut fmt::Formatter<'_>) -> fmt::Result {
        self.0.iter().try_for_each(|byte| write!(f, "{byte:02x}"))
    }
}

/// The program, which has given a published sum.
#[derive(Debug)]
pub struct Sha256(());

impl Sha256 {
    /// Looks for the program, and asks it for a sum that is known.
    pub fn look() -> Result<Sha256, Failure> {
        signals::wait_for_children();
        let program = Sha256(());
        if program.of(KNOWN)?.to_string() != KNOWN_SUM {
            return Err(failed("gives a wrong sum of a text whose sum is published"));
        }
        Ok(program)
    }

    /// The sum of bytes.
    pub fn of(&self, bytes: &[u8]) -> Result<Sum, Failure> {
        fed(|mut pipe| pipe.write_all(bytes))
    }

    /// The sum of all that a source gives, or the error of the source.
    pub fn of_source(&self, source: impl Read + Send) -> Result<io::Result<Sum>, Failure> {
        let mut unread = None;
        let sum = fed(|pipe| hand_on(source, pipe, &mut unread))?;
        Ok(unread.map_or(Ok(sum), Err))
    }
}

/// Hands on all that a source gives. An error of the source ends it and is noted; an error of the pipe is the answer.
fn hand_on(
    mut source: impl Read,
    mut pipe: ChildStdin,
    unread: &mut Option<io::Error>,
) -> io::Result<()> {
    let mut piece = vec![0; PIECE];
    loop {
        match source.read(&mut piece) {
            Ok(0) => return Ok(()),
            Ok(read) => pipe.write_all(&piece[..read])?,
            Err(error) if error.kind() == io::ErrorKind::Interrupted => {}
            Err(error) => {
                *unread = Some(error);
                return Ok(());
            }
        }
    }
}

/// The sum that the program gives of what is fed to it.
fn fed(feed: impl FnOnce(ChildStdin) -> io::Result<()> + Send) -> Result<Sum, Failure> {
    let spawned = Command::new(PROGRAM)
        .stdin(Stdio::piped())
        .stdout(Stdio::piped())
        .spawn();
    let mut child = spawned.map_err(|error| {
        let why = reason(&error);
        failed(&format!(
            "cannot be run: {why}; it is a program of coreutils, and PATH has to lead to it"
        ))
    })?;
    let exchanged = exchange(&mut child, feed);
    let status = child.wait();
    let why = |error: io::Error| failed(&format!("failed: {}", reason(&error)));
    let status = status.map_err(why)?;
    if !status.success() {
        return Err(failed(&ended(status)));
    }
    let printed = exchanged.map_err(why)?;
    let (digits, rest) = printed.split_at(printed.len().min(DIGITS));
    let sum = Sum::of_digits(digits).filter(|_| rest.starts_with(b" "));
    sum.ok_or_else(|| failed("failed: what it printed is no sum"))
}

/// Feeds a child and gives what it prints.
fn exchange(
    child: &mut Child,
    feed: impl FnOnce(ChildStdin) -> io::Result<()> + Send,
) -> io::Result<Vec<u8>> {
    let (Some(input), Some(output)) = (child.stdin.take(), child.stdout.take()) else {
        return Err(io::Error::other("it has no pipes"));
    };
    thread::scope(|scope| {
        let feeder = thread::Builder::new().spawn_scoped(scope, || feed(input))?;
        let mut printed = Vec::new();
        let read = output.take(MOST_PRINTED).read_to_end(&mut printed);
        let fed = feeder.join();
        fed.unwrap_or_else(|_| Err(io::Error::other("it could not be fed")))?;
        read.map(|_| printed)
    })
}

/// How a program ended that did not end well.
fn ended(status: ExitStatus) -> String {
    match status.code() {
        Some(code) => format!("failed with status {code}"),
        None => format!("failed: {status}"),
    }
}

/// A failure of the program.
fn failed(message: &str) -> Failure {
    Failure::file(PROGRAM, message)
}

#[cfg(test)]
mod tests {
    use super::*;

    #[test]
    fn bytes_and_sources_of_any_length() {
        let program = Sha256::look().unwrap();
        for length in [0, 1, 4096, PIECE, 1_000_003] {
            let bytes: Vec<u8> = (0..length).map(|at| (at % 251) as u8).collect();
            let sum = program.of(&bytes).unwrap();
            assert_eq!(program.of_source(&bytes[..]).unwrap().unwrap(), sum);
            assert_ne!(program.of(&[&bytes[..], b"1"].concat()).unwrap(), sum);
        }
        let empty = "e3b0c44298fc1c149afbf4c8996fb92427ae41e4649b934ca495991b7852b855";
        assert_eq!(program.of(b"").unwrap().to_string(), empty);
    }

    #[test]
    fn a_source_that_fails_is_told_from_the_program() {
        struct Broken;
        impl Read for Broken {
            fn read(&mut self, _: &mut [u8]) -> io::Result<usize> {
                Err(io::ErrorKind::NotFound.into())
            }
        }
        let program = Sha256::look().unwrap();
        let source = (&b"begin"[..]).chain(Broken);
        let error = program.of_source(source).unwrap().unwrap_err();
        assert_eq!(error.kind(), io::ErrorKind::NotFound);
    }
}
