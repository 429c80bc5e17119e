//! What the programs print, and their exit status when something is wrong. Nothing here panics:
//! standard output may be closed or full, and what can't be said on standard error is left out.

use std::ffi::OsStr;
use std::fmt::Display;
use std::io::{self, ErrorKind, Write};
use std::process::ExitCode;

/// The exit status of a program that could not do what was asked for.
pub const FAILED: u8 = 2;

/// A program, by its name.
#[derive(Debug, Clone, Copy)]
pub struct Console {
    pub program: &'static str,
}

impl Console {
    /// Prints the help.
    pub fn help(self, help: &str) -> ExitCode {
        self.write(None, help.as_bytes())
    }

    /// Writes a file, or to standard output if none is named.
    pub fn write(self, file: Option<&OsStr>, octets: &[u8]) -> ExitCode {
        let Some(file) = file else {
            return match print(octets) {
                Ok(()) => ExitCode::SUCCESS,
                Err(error) => self.not_printed(&error),
            };
        };
        match std::fs::write(file, octets) {
            Ok(()) => ExitCode::SUCCESS,
            Err(error) => self.complain(format_args!("{}: {error}", file.display())),
        }
    }

    /// Says what is wrong.
    pub fn complain(self, why: impl Display) -> ExitCode {
        let _ = writeln!(io::stderr(), "{}: {why}", self.program);
        ExitCode::from(FAILED)
    }

    /// Says what is wrong with the arguments.
    pub fn wrong_arguments(self, why: impl Display) -> ExitCode {
        self.complain(format_args!("{why}; --help says more"))
    }

    /// Says why standard output can't be written to. A reader that has closed it wants no more,
    /// and is told nothing.
    pub fn not_printed(self, error: &io::Error) -> ExitCode {
        match error.kind() {
            ErrorKind::BrokenPipe => ExitCode::from(FAILED),
            _ => self.complain(format_args!("standard output: {error}")),
        }
    }
}

/// Prints to standard output, at once.
pub fn print(octets: &[u8]) -> io::Result<()> {
    let mut out = io::stdout().lock();
    out.write_all(octets)?;
    out.flush()
}
