//! How a run ended and what it printed.

use super::json::Json;
use super::WORDS;
use std::os::unix::process::ExitStatusExt;
use std::process::ExitStatus;

/// The end of a run.
pub struct Outcome {
    /// What was run.
    pub call: String,
    /// How it ended.
    pub status: ExitStatus,
    /// Its standard output.
    pub out: Vec<u8>,
    /// Its standard error.
    pub err: Vec<u8>,
}

impl Outcome {
    /// Standard output as text.
    pub fn text(&self) -> String {
        String::from_utf8_lossy(&self.out).into_owned()
    }

    /// Standard error as text.
    pub fn notes(&self) -> String {
        String::from_utf8_lossy(&self.err).into_owned()
    }

    /// The signal that ended it.
    pub fn signal(&self) -> Option<i32> {
        self.status.signal()
    }

    /// What the run was, for the message of a failed test.
    pub fn story(&self) -> String {
        let Outcome { call, status, .. } = self;
        let (out, err) = (self.text(), self.notes());
        format!("{call}\n{status}\nstandard output:\n{out}\nstandard error:\n{err}")
    }

    /// Wants this exit status.
    #[track_caller]
    pub fn ended(&self, status: i32) -> &Outcome {
        assert_eq!(self.status.code(), Some(status), "{}", self.story());
        self
    }

    /// Wants status 0 and exactly this standard output.
    #[track_caller]
    pub fn printed(&self, expected: &str) -> &Outcome {
        self.ended(0);
        assert_eq!(self.text(), expected, "{}", self.story());
        self
    }

    /// Wants this exit status and nothing on standard output.
    #[track_caller]
    pub fn printed_nothing(&self, status: i32) -> &Outcome {
        self.ended(status);
        assert_eq!(self.text(), "", "{}", self.story());
        self
    }

    /// Wants status 0 and nothing on standard error.
    #[track_caller]
    pub fn quiet(&self) -> &Outcome {
        self.ended(0);
        assert_eq!(self.notes(), "", "{}", self.story());
        self
    }

    /// Wants status 1 and an error line with this number, its word and a sentence. Gives the sentence.
    #[track_caller]
    pub fn refused(&self, number: usize) -> String {
        self.ended(1);
        let mark = format!("refused, {number} {}: ", WORDS[number]);
        let notes = self.notes();
        let line = notes.lines().find(|line| line.contains(&mark));
        let line = line.unwrap_or_else(|| panic!("no '{mark}':\n{}", self.story()));
        assert!(line.starts_with("radar-archive: "), "{}", self.story());
        let (_, sentence) = line.split_once(&mark).expect("the mark");
        assert!(sentence.split(' ').count() >= 4, "{}", self.story());
        sentence.to_string()
    }

    /// Wants a usage error of a command ("" for the program): status 2, nothing on standard output, the hint last.
    /// Gives the standard error.
    #[track_caller]
    pub fn usage(&self, command: &str) -> String {
        self.ended(2);
        assert_eq!(self.text(), "", "{}", self.story());
        let notes = self.notes();
        assert!(notes.starts_with("radar-archive: "), "{}", self.story());
        let name = format!("radar-archive {command}");
        let hint = format!("\nTry '{} --help'.\n", name.trim_end());
        assert!(notes.ends_with(&hint), "{}", self.story());
        notes
    }

    /// Wants status 3 and an error line that names this. Gives the standard error.
    #[track_caller]
    pub fn failed(&self, about: &str) -> String {
        self.ended(3);
        let notes = self.notes();
        let line = notes.lines().find(|line| line.contains(about));
        let line = line.unwrap_or_else(|| panic!("nothing of {about}:\n{}", self.story()));
        assert!(line.starts_with("radar-archive: "), "{}", self.story());
        notes
    }

    /// Standard output as JSON Lines, each parsed.
    #[track_caller]
    pub fn json_lines(&self) -> Vec<Json> {
        let text = std::str::from_utf8(&self.out).expect("UTF-8");
        assert!(text.ends_with('\n'), "{}", self.story());
        let parse =
            |line: &str| Json::parse(line).unwrap_or_else(|e| panic!("{e}\n{}", self.story()));
        text.lines().map(parse).collect()
    }

    /// The only line of standard output as JSON; status 0 and nothing on standard error.
    #[track_caller]
    pub fn json(&self) -> Json {
        self.quiet();
        let mut lines = self.json_lines();
        assert_eq!(lines.len(), 1, "{}", self.story());
        lines.remove(0)
    }
}
