//! `abr-trace [FILE]`: records a trace from an example transmitter, or from the log of another.

use std::collections::HashMap;
use std::ffi::{OsStr, OsString};
use std::fs::File;
use std::io::{self, BufReader, IsTerminal};
use std::process::ExitCode;

use abr::Address;
use abr_tools::arguments::{self, is_option, STANDARD};
use abr_tools::console::Console;
use abr_tools::log;
use abr_tools::record::Recorder;
use abr_tools::scenario::Scenario;

const CONSOLE: Console = Console {
    program: "abr-trace",
};

const HELP: &str = "\
usage: abr-trace [--scenario two | random] [--seed N] [--connection VPI/VCI] [--text] [FILE]
       abr-trace --log LOG [--connection VPI/VCI] [--opening N] [--text] [FILE]
       abr-trace --list [--log LOG | --scenario two | random] [--seed N] [FILE]

Records the cells that one connection of a transmitter sends, as a trace that abr-judge
reads: of one that runs here, over the ABR rate engine, or of one that printed a log.

  FILE                  where the trace goes; standard output without it, or if it is -
  --scenario two        two connections under changing congestion, as examples/picture
                        draws them (the default)
  --scenario random     three connections with random parameters, data and feedback
  --seed N              another random scenario (default 1)
  --log LOG             what a transmitter printed; - is standard input
  --connection VPI/VCI  the connection that is recorded; the first one without it
  --opening N           of a connection that the log opens more than once, the Nth time
                        (default 1)
  --text                as decimal numbers
  --list                the connections in place of a trace, one to a line: VPI/VCI, which
                        opening it is, and how many cells it sent
  --                    what follows is the file
  --help                this text
  --version             the version of the library that sends

Of a log these lines are read, and every other one is passed over:

  abr-trace open VPI/VCI N TRM              a connection is opened: the exponent of Nrm and the
                                            number of Trm
  abr-trace cell VPI/VCI TIME KIND RATE     a slot was passed this time, in nanoseconds, and sent
                                            a cell: 1 forward, 2 backward, 3 data, 0 none; the
                                            rate before it, in 512ths of a cell per second
  abr-trace close VPI/VCI                   it is closed

Exit status: 0 if the trace is written, 2 if the arguments are wrong, if the log can't be read or
has a wrong line, if there is no such connection, or if the trace can't be written; of standard
output closed by its reader nothing is said.
";

/// What is asked for.
#[derive(Default)]
struct Options {
    random: Option<bool>,
    seed: Option<u64>,
    log: Option<OsString>,
    connection: Option<Address>,
    opening: Option<usize>,
    text: bool,
    list: bool,
    /// None for standard output.
    file: Option<OsString>,
}

fn main() -> ExitCode {
    let options = match arguments::options(CONSOLE, HELP, options) {
        Ok(options) => options,
        Err(status) => return status,
    };
    match record(&options) {
        Ok(octets) => write(&octets, &options),
        Err(why) => CONSOLE.complain(why),
    }
}

/// The options of these arguments, or what is wrong with them.
fn options(arguments: Vec<OsString>) -> Result<Options, String> {
    let mut options = Options::default();
    let mut files = arguments::files(arguments, |option, behind| {
        if option == "--log" {
            let log = behind.next().filter(|log| !is_option(log));
            options.log = Some(log.ok_or("--log needs a file")?);
            return Ok(true);
        }
        let mut value = || {
            let text = behind.next().and_then(|value| value.into_string().ok());
            text.ok_or(format!("{option} needs a value"))
        };
        match option {
            "--text" => options.text = true,
            "--list" => options.list = true,
            "--scenario" => options.random = Some(random(&value()?)?),
            "--seed" => {
                let seed = value()?.parse().map_err(|_| "a seed is a number")?;
                options.seed = Some(seed);
            }
            "--opening" => options.opening = Some(opening(&value()?)?),
            "--connection" => options.connection = Some(arguments::address(&value()?)?),
            _ => return Ok(false),
        }
        Ok(true)
    })?;
    if files.len() > 1 {
        return Err("more than one file is named".to_owned());
    }
    options.file = files.pop().filter(|file| file != STANDARD);
    options.together()
}

impl Options {
    /// The same, if one option goes with the other.
    fn together(self) -> Result<Self, String> {
        let random = self.random == Some(true);
        let chosen = self.connection.is_some() || self.opening.is_some();
        Err(match &self {
            _ if self.log.is_some() && self.random.is_some() => "--log goes without --scenario",
            _ if self.seed.is_some() && !random => "--seed goes with --scenario random",
            _ if self.opening.is_some() && self.log.is_none() => "--opening goes with --log",
            _ if self.list && (self.text || chosen) => {
                "--list goes without --text, --connection and --opening"
            }
            _ => return Ok(self),
        }
        .to_owned())
    }
}

/// Whether a scenario of this name is random.
fn random(name: &str) -> Result<bool, String> {
    match name {
        "two" => Ok(false),
        "random" => Ok(true),
        _ => Err(format!("there is no scenario {name}")),
    }
}

/// Which opening a word means, counted from 1.
fn opening(word: &str) -> Result<usize, String> {
    let number = word.parse().ok().filter(|number| *number > 0);
    number.ok_or("an opening is a number from 1 on".to_owned())
}

/// Runs the scenario or reads the log; the octets of the file.
fn record(options: &Options) -> Result<Vec<u8>, String> {
    let traces = match &options.log {
        Some(log) => logged(log).map_err(|why| format!("{}: {why}", log.display()))?,
        None => run(options)?,
    };
    if options.list {
        return Ok(list(&traces).into_bytes());
    }
    let recorder = chosen(&traces, options)?;
    Ok(match options.text {
        true => recorder.text().into_bytes(),
        false => recorder.octets(),
    })
}

/// The traces of a log.
fn logged(log: &OsStr) -> Result<Vec<(Address, Recorder)>, String> {
    if log == STANDARD {
        return log::read(io::stdin().lock());
    }
    let file = File::open(log).map_err(|error| error.to_string())?;
    log::read(BufReader::new(file))
}

/// Those of the scenario.
fn run(options: &Options) -> Result<Vec<(Address, Recorder)>, String> {
    let scenario = match options.random {
        Some(true) => Scenario::Random(options.seed.unwrap_or(1)),
        _ => Scenario::Two,
    };
    let traces = scenario.run();
    traces.map_err(|refusal| format!("refused: {refusal}"))
}

/// Writes the octets of the file.
fn write(octets: &[u8], options: &Options) -> ExitCode {
    let readable = options.text || options.list;
    if options.file.is_none() && !readable && io::stdout().is_terminal() {
        return CONSOLE.complain("octets are not written to a terminal: name a file, or --text");
    }
    CONSOLE.write(options.file.as_deref(), octets)
}

/// The connections, each with which opening of its pair it is, and its cells.
fn list(traces: &[(Address, Recorder)]) -> String {
    let mut openings = HashMap::new();
    let lines = traces.iter().map(|(at, recorder)| {
        let opening = openings.entry(at).or_insert(0);
        *opening += 1;
        format!("{at} {opening} {}\n", recorder.count())
    });
    lines.collect()
}

/// The trace of a connection, of the first one if none is named.
fn chosen<'a>(
    traces: &'a [(Address, Recorder)],
    options: &Options,
) -> Result<&'a Recorder, String> {
    let first = traces.first().map(|(at, _)| *at);
    let wanted = options.connection.or(first);
    let mut found = traces.iter().filter(|(at, _)| Some(*at) == wanted);
    let found = found.nth(options.opening.unwrap_or(1) - 1);
    found.map(|(_, recorder)| recorder).ok_or_else(|| {
        let all: Vec<String> = traces.iter().map(|(at, _)| at.to_string()).collect();
        match all.is_empty() {
            true => "no connection is opened there".to_owned(),
            false => format!("there is no such connection; there are {}", all.join(", ")),
        }
    })
}
