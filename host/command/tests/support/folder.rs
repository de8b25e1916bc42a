//! A scratch folder, removed at the end of the test.

use super::{process, Outcome, PROGRAM, SAMPLES};
use std::ffi::{OsStr, OsString};
use std::fs;
use std::os::unix::fs::{MetadataExt, PermissionsExt};
use std::os::unix::process::CommandExt;
use std::path::{Path, PathBuf};
use std::process::Command;
use std::sync::atomic::{AtomicU32, Ordering};

/// A user, and a group, without any right of its own.
const NOBODY: u32 = 65534;

static NUMBER: AtomicU32 = AtomicU32::new(0);

/// A scratch folder. The program is run in it.
pub struct Folder {
    path: PathBuf,
}

impl Folder {
    /// An empty folder.
    pub fn new() -> Folder {
        process::usual_mask();
        let number = NUMBER.fetch_add(1, Ordering::Relaxed);
        let name = format!("radar-archive-test-{}-{number}", std::process::id());
        let path = std::env::temp_dir().join(name);
        fs::create_dir(&path).expect("a scratch folder");
        let path = path.canonicalize().expect("a scratch folder");
        Folder { path }
    }

    /// A folder with m1.radar to m6.radar.
    pub fn with_samples() -> Folder {
        let folder = Folder::new();
        for sample in 1..=6 {
            let name = format!("m{sample}.radar");
            fs::copy(Path::new(SAMPLES).join(&name), folder.path(&name)).expect("a sample");
        }
        folder
    }

    /// The path of a name in the folder.
    pub fn path(&self, name: impl AsRef<OsStr>) -> PathBuf {
        self.path.join(Path::new(name.as_ref()))
    }

    /// Makes a folder in the folder, with the folders on the way.
    pub fn folder(&self, name: impl AsRef<OsStr>) {
        fs::create_dir_all(self.path(name)).expect("a folder");
    }

    /// Writes a file.
    pub fn write(&self, name: impl AsRef<OsStr>, bytes: &[u8]) {
        let path = self.path(name);
        fs::write(&path, bytes).unwrap_or_else(|error| panic!("{path:?}: {error}"));
    }

    /// Reads a file.
    pub fn read(&self, name: impl AsRef<OsStr>) -> Vec<u8> {
        let path = self.path(name);
        fs::read(&path).unwrap_or_else(|error| panic!("{path:?}: {error}"))
    }

    /// Removes a file.
    pub fn remove(&self, name: impl AsRef<OsStr>) {
        fs::remove_file(self.path(name)).expect("a file to remove");
    }

    /// The names in the folder, sorted, hidden ones too.
    pub fn names(&self) -> Vec<OsString> {
        let entries = fs::read_dir(&self.path).expect("the scratch folder");
        let mut names: Vec<_> = entries
            .map(|entry| entry.expect("an entry").file_name())
            .collect();
        names.sort();
        names
    }

    /// The file's number on its file system and its bytes: the same for a file that nobody touched.
    pub fn state(&self, name: impl AsRef<OsStr>) -> (u64, Vec<u8>) {
        let path = self.path(name.as_ref());
        let inode = fs::symlink_metadata(path).expect("a file").ino();
        (inode, self.read(name))
    }

    /// Runs a script of bash in this folder as a user without any right of its own; the program is `./program` there, a copy that everybody may run.
    pub fn bash_as_nobody(&self, script: &str) -> Outcome {
        let program = self.path("program");
        if !program.exists() {
            fs::copy(PROGRAM, &program).expect("the program");
            let bits = PermissionsExt::from_mode(0o755);
            fs::set_permissions(&program, bits).expect("permissions");
        }
        let mut command = self.bash_command(script);
        if process::is_root() {
            command.uid(NOBODY).gid(NOBODY);
        }
        process::run(&mut command, None)
    }

    /// Runs the program as that user, with arguments separated by one space.
    pub fn run_as_nobody(&self, arguments: &str) -> Outcome {
        self.bash_as_nobody(&format!("exec ./program {arguments}"))
    }

    /// The program, to be run in this folder.
    pub fn command(&self) -> Command {
        let mut command = Command::new(PROGRAM);
        command.current_dir(&self.path);
        command
    }

    /// Runs the program with arguments separated by one space.
    pub fn run(&self, arguments: &str) -> Outcome {
        self.run_all(arguments.split_ascii_whitespace())
    }

    /// Runs the program with these arguments.
    pub fn run_all(&self, arguments: impl IntoIterator<Item = impl AsRef<OsStr>>) -> Outcome {
        process::run(self.command().args(arguments), None)
    }

    /// Runs the program with arguments separated by one space and this standard input.
    pub fn run_on(&self, input: &[u8], arguments: &str) -> Outcome {
        let arguments = arguments.split_ascii_whitespace();
        process::run(self.command().args(arguments), Some(input))
    }

    /// Runs a script of bash in this folder; `radar-archive` is on the path.
    pub fn bash(&self, script: &str) -> Outcome {
        process::run(&mut self.bash_command(script), None)
    }

    /// A script of bash, to be run in this folder; `radar-archive` is on the path.
    pub fn bash_command(&self, script: &str) -> Command {
        let programs = Path::new(PROGRAM).parent().expect("a folder of programs");
        let path = std::env::var("PATH").unwrap_or_default();
        let path = format!("{}:{path}", programs.display());
        let mut command = Command::new("bash");
        command.args(["-c", script]).current_dir(&self.path);
        command.env("PATH", path);
        command
    }
}

impl Drop for Folder {
    fn drop(&mut self) {
        let _ = fs::remove_dir_all(&self.path);
    }
}
