//! Standard output.

use std::ffi::OsStr;
use std::fs::File;
use std::io::{self, BufWriter, IsTerminal, Write};
use std::os::fd::AsFd;

use crate::failure::{reason, Failure};
use crate::shown;

/// Results on standard output, buffered; at a terminal each line is shown at once.
#[derive(Debug)]
pub struct Results {
    writer: BufWriter<File>,
    terminal: bool,
}

impl Results {
    /// Standard output.
    pub fn open() -> Result<Results, Failure> {
        let output = io::stdout();
        let descriptor = output.as_fd().try_clone_to_owned().map_err(failed)?;
        Ok(Results {
            writer: BufWriter::with_capacity(1 << 16, File::from(descriptor)),
            terminal: output.is_terminal(),
        })
    }

    /// Whether standard output is a terminal.
    pub fn is_terminal(&self) -> bool {
        self.terminal
    }

    /// Puts bytes.
    pub fn put(&mut self, bytes: &[u8]) -> Result<(), Failure> {
        self.writer.write_all(bytes).map_err(failed)?;
        if self.terminal {
            self.writer.flush().map_err(failed)?;
        }
        Ok(())
    }

    /// Puts a path, and a text after it.
    pub fn put_path(&mut self, path: &OsStr, text: &str) -> Result<(), Failure> {
        let mut line = shown::name(path, self.terminal);
        line.extend_from_slice(text.as_bytes());
        self.put(&line)
    }

    /// Puts what is still buffered.
    pub fn flush(&mut self) -> Result<(), Failure> {
        self.writer.flush().map_err(failed)
    }

    /// Puts what is still buffered, and ends.
    pub fn finish(mut self) -> Result<(), Failure> {
        self.flush()
    }
}

/// A write to standard output that failed.
fn failed(error: io::Error) -> Failure {
    match error.kind() {
        io::ErrorKind::BrokenPipe => Failure::Pipe,
        _ => {
            let message = format!("cannot be written: {}", reason(&error));
            Failure::file("standard output", message)
        }
    }
}
