//! What both programs make of their arguments.

use std::ffi::{OsStr, OsString};
use std::process::ExitCode;

use abr::Address;

use crate::console::Console;

/// Standard input or output, where a file is named.
pub const STANDARD: &str = "-";
/// Behind it every argument is a file.
pub const FILES: &str = "--";

/// What the arguments of this program ask for, by a function that says what is wrong with them;
/// its exit status if they are wrong or ask for help or the version.
pub fn options<T>(
    console: Console,
    help_text: &str,
    options: impl FnOnce(Vec<OsString>) -> Result<T, String>,
) -> Result<T, ExitCode> {
    let arguments: Vec<OsString> = std::env::args_os().skip(1).collect();
    if asked(&arguments, "--help") {
        return Err(console.help(help_text));
    }
    if asked(&arguments, "--version") {
        return Err(console.help(&version(console.program)));
    }
    options(arguments).map_err(|why| console.wrong_arguments(why))
}

/// The files that arguments name. Each option goes to `take`, which has the arguments behind it
/// for its value and says whether there is such an option.
pub fn files(
    arguments: Vec<OsString>,
    mut take: impl FnMut(&str, &mut dyn Iterator<Item = OsString>) -> Result<bool, String>,
) -> Result<Vec<OsString>, String> {
    let mut files = Vec::new();
    let mut arguments = arguments.into_iter();
    while let Some(argument) = arguments.next() {
        if argument == FILES {
            files.extend(arguments.by_ref());
        } else if !is_option(&argument) {
            files.push(argument);
        } else {
            let known = argument.to_str().map(|name| take(name, &mut arguments));
            if !known.transpose()?.unwrap_or(false) {
                return Err(format!("unknown option {}", argument.display()));
            }
        }
    }
    Ok(files)
}

/// The connection that an argument names.
pub fn address(text: &str) -> Result<Address, String> {
    let wrong = || format!("\"{text}\" is no connection; one is written VPI/VCI, as 1/32");
    let number = |digits: &str| digits.parse().map_err(|_| wrong());
    let (vpi, vci) = text.split_once('/').ok_or_else(wrong)?;
    Ok(Address::new(number(vpi)?, number(vci)?))
}

/// Whether an option is among the arguments, wherever it stands.
fn asked(arguments: &[OsString], option: &str) -> bool {
    let mut options = arguments.iter().take_while(|argument| *argument != FILES);
    options.any(|argument| argument == option)
}

/// A program with the version of the library in it, which is what judges and sends.
fn version(program: &str) -> String {
    let number = |place: u32| abr::ffi::ABR_VERSION >> (8 * place) & 0xFF;
    format!("{program} {}.{}.{}\n", number(2), number(1), number(0))
}

/// Whether an argument is written as options are.
pub fn is_option(argument: &OsStr) -> bool {
    argument != STANDARD && argument.as_encoded_bytes().starts_with(b"-")
}
