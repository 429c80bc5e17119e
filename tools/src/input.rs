//! A trace read from a file, and judged.

use std::ffi::OsStr;
use std::fs::File;
use std::io::{self, Read};

use abr::{Refusal, Verdict};

use crate::arguments::STANDARD;
use crate::excerpt::Excerpt;
use crate::progress::Progress;
use crate::text;

/// What is read at a time.
const CHUNK: u64 = 1 << 20;

/// Reads and judges the trace in a file, or standard input for `-`; with `as_text` it is
/// written as numbers. The library's verdict, and what is to be said of the trace.
pub fn judged(
    path: &OsStr,
    as_text: bool,
    mut progress: Progress<'_>,
) -> Result<(Result<Verdict, Refusal>, Excerpt), String> {
    let octets = trace(path, as_text, &mut progress)?;
    let words = format!("{} are being judged", size(&octets));
    let outcome = progress.during(&words, || abr::judge(&octets));
    let words = format!("{} are being explained", size(&octets));
    let excerpt = progress.during(&words, || Excerpt::of(&octets, outcome));
    Ok((outcome, excerpt))
}

/// The octets of a trace.
fn trace(path: &OsStr, as_text: bool, progress: &mut Progress<'_>) -> Result<Vec<u8>, String> {
    let octets = read(path, progress).map_err(|error| error.to_string())?;
    if !as_text {
        return Ok(octets);
    }
    let words = format!("{} of text are being parsed", size(&octets));
    progress.during(&words, || {
        let text = String::from_utf8(octets).map_err(|_| "it is no text".to_owned())?;
        text::octets(&text)
    })
}

/// The size of some octets, in words.
fn size(octets: &[u8]) -> String {
    format!("{} MiB", octets.len() as u64 / CHUNK)
}

/// All octets of a file.
fn read(path: &OsStr, progress: &mut Progress<'_>) -> io::Result<Vec<u8>> {
    let (mut file, whole): (Box<dyn Read>, u64) = match path {
        path if path == STANDARD => (Box::new(io::stdin().lock()), 0),
        path => {
            let file = File::open(path)?;
            let whole = file.metadata()?.len();
            (Box::new(file), whole)
        }
    };
    let mut octets = Vec::new();
    while file.by_ref().take(CHUNK).read_to_end(&mut octets)? > 0 {
        progress.show(|| match whole {
            0 => format!("{} read", size(&octets)),
            whole => format!(
                "{} of {} MiB read",
                octets.len() as u64 / CHUNK,
                whole / CHUNK
            ),
        });
    }
    Ok(octets)
}
