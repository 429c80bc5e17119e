//! `abr-judge [FILE..]`: judges traces of transmitters.

use std::ffi::{OsStr, OsString};
use std::io::{self, IsTerminal};
use std::process::ExitCode;

use abr_tools::arguments::{self, is_option, STANDARD};
use abr_tools::console::{self, Console, FAILED};
use abr_tools::fault::Unit;
use abr_tools::progress::Progress;
use abr_tools::{draw, explain, input, json};

const CONSOLE: Console = Console {
    program: "abr-judge",
};

const HELP: &str = "\
usage: abr-judge [--text] [--json] [--svg OUT] [FILE..]

Judges the cells that a transmitter sent on one ABR connection, from the first on, and
prints a sentence for each trace: that it passes; or which cell breaks which rule, with
what was expected and what was found; or why the trace is refused.

  FILE        a trace; - is standard input, once; without a FILE standard input is judged,
              unless it is a terminal
  --text      traces are decimal numbers with white space between; # begins a comment
  --json      prints an object in a line of its own for each trace in place of a sentence; the
              manual page has its fields
  --svg OUT   also draws the trace, with the cell that breaks a rule marked; for one FILE
  --          what follows are files
  --help      this text
  --version   the version of the library that judges

A trace begins with two numbers, the exponent of Nrm (5 for 32) and the number of Trm. Three
follow for every cell: the nanoseconds from the cell before to it, 0 for the first; what it is,
1 a forward RM cell, 2 a backward RM cell, 3 data; and which rate was allowed just before it, in
512ths of a cell per second. Without --text a number takes an octet for every seven of its bits,
the lowest first and no more than it needs; an octet of 128 or more is not the number's last.

Rule 1  A connection starts with a forward RM cell.
Rule 2  Each further cell keeps the gap: 1 s divided by the allowed cells per second, rounded
        up to whole nanoseconds. At rate 0 no cell is sent.
Rule 3  Further forward RM cells come when one is due, and at no other time: with Nrm - 1
        cells sent since the last one, or with two or more sent and Trm passed since then.

Exit status: 0 if every trace passes, 1 if one breaks a rule or is refused. 2 if the arguments
are wrong, if a file can't be read, or with --text has a word that is no number, or if the
picture or standard output can't be written. Judging stops, without a message, when the reader
of standard output closes it.
";

/// What is asked for.
#[derive(Default)]
struct Options {
    text: bool,
    json: bool,
    svg: Option<OsString>,
    files: Vec<OsString>,
}

fn main() -> ExitCode {
    let options = match arguments::options(CONSOLE, HELP, options) {
        Ok(options) => options,
        Err(status) => return status,
    };
    let mut status = 0;
    for file in &options.files {
        match judge(file, &options) {
            Ok(found) => status = status.max(found),
            Err(error) => return CONSOLE.not_printed(&error),
        }
    }
    ExitCode::from(status)
}

/// The options of these arguments, or what is wrong with them.
fn options(arguments: Vec<OsString>) -> Result<Options, String> {
    let mut options = Options::default();
    options.files = arguments::files(arguments, |option, behind| {
        match option {
            "--text" => options.text = true,
            "--json" => options.json = true,
            "--svg" => {
                let named = |file: &OsString| file != STANDARD && !is_option(file);
                let file = behind.next().filter(named);
                options.svg = Some(file.ok_or("--svg needs a file")?);
            }
            _ => return Ok(false),
        }
        Ok(true)
    })?;
    if options.files.is_empty() && !io::stdin().is_terminal() {
        options.files.push(STANDARD.into());
    }
    let standard = options.files.iter().filter(|file| *file == STANDARD);
    match (options.files.len(), standard.count(), &options.svg) {
        (0, ..) => Err("no trace is named".to_owned()),
        (2.., _, Some(_)) => Err("--svg draws one trace only".to_owned()),
        (_, 2.., _) => Err("standard input can be judged once only".to_owned()),
        _ => Ok(options),
    }
}

/// Judges one trace and prints what is said of it; the exit status. The error is that of
/// standard output.
fn judge(file: &OsStr, options: &Options) -> io::Result<u8> {
    let name = file.display().to_string();
    let (outcome, excerpt) = match input::judged(file, options.text, Progress::begin(&name)) {
        Ok(judged) => judged,
        Err(why) => return unread(&name, &why, options),
    };
    let unit = match options.text {
        true => Unit::Numbers,
        false => Unit::Octets,
    };
    let sentence = explain::sentence(&excerpt, outcome, unit);
    let said = match options.json {
        true => json::judged(&name, &sentence, outcome, &excerpt, unit),
        false => format!("{name}: {sentence}.\n"),
    };
    console::print(said.as_bytes())?;
    if let Some(path) = &options.svg {
        let picture = draw::svg(&name, &sentence, &excerpt);
        if let Err(error) = std::fs::write(path, picture) {
            CONSOLE.complain(format_args!("{}: {error}", path.display()));
            return Ok(FAILED);
        }
    }
    Ok(u8::from(outcome != Ok(abr::Verdict::Passes)))
}

/// Says why a file can't be read. Who reads objects has one for each file all the same.
fn unread(name: &str, why: &str, options: &Options) -> io::Result<u8> {
    CONSOLE.complain(format_args!("{name}: {why}"));
    if options.json {
        console::print(json::unread(name, why).as_bytes())?;
    }
    Ok(FAILED)
}
