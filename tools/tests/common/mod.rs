//! The programs run in a folder of their own.

// No test uses all of it.
#![allow(dead_code)]

use std::path::PathBuf;
use std::process::{Command, Output};

/// The programs.
pub const JUDGE: &str = env!("CARGO_BIN_EXE_abr-judge");
pub const TRACE: &str = env!("CARGO_BIN_EXE_abr-trace");

/// A folder for one test, emptied before; its files are left for who looks at a failure.
pub struct Folder {
    pub path: PathBuf,
}

impl Folder {
    pub fn new(name: &str) -> Self {
        let path = PathBuf::from(env!("CARGO_TARGET_TMPDIR")).join(name);
        let _ = std::fs::remove_dir_all(&path);
        std::fs::create_dir_all(&path).expect("a folder");
        Folder { path }
    }

    /// Writes a file.
    pub fn put(&self, name: &str, octets: &[u8]) {
        std::fs::write(self.path.join(name), octets).expect("a file");
    }

    /// Reads a file.
    pub fn get(&self, name: &str) -> Vec<u8> {
        std::fs::read(self.path.join(name)).expect("a file")
    }

    /// Runs `abr-judge`: its exit status and what it printed, to standard output and to
    /// standard error.
    pub fn judge(&self, words: &[&str]) -> (i32, String, String) {
        self.run(JUDGE, words)
    }

    /// Runs `abr-trace`.
    pub fn trace(&self, words: &[&str]) -> (i32, String, String) {
        self.run(TRACE, words)
    }

    fn run(&self, program: &str, words: &[&str]) -> (i32, String, String) {
        let Output {
            status,
            stdout,
            stderr,
        } = self.command(program, words).output().expect("it runs");
        let text = |octets: Vec<u8>| String::from_utf8_lossy(&octets).into_owned();
        let status = status.code().expect("an exit status");
        (status, text(stdout), text(stderr))
    }

    /// A program that is to run here.
    pub fn command(&self, program: &str, words: &[&str]) -> Command {
        let mut command = Command::new(program);
        command.current_dir(&self.path).args(words);
        command
    }
}
