//! Traces written as decimal numbers, with white space between them; `#` begins a comment
//! that ends with its line.

use std::fmt::Write;
use std::num::IntErrorKind;

use crate::number::{put, put_too_large};
use crate::trace::{Cell, Head};

/// The octets of a trace that is written as a text. A number of more than 64 bits stays one,
/// which the judge refuses. The error names the line of what is no number.
pub fn octets(text: &str) -> Result<Vec<u8>, String> {
    let mut octets = Vec::new();
    for (line, words) in text.lines().enumerate() {
        let words = words.split('#').next().unwrap_or_default();
        for word in words.split_whitespace() {
            put_word(&mut octets, word).map_err(|why| format!("line {}: {why}", line + 1))?;
        }
    }
    Ok(octets)
}

/// Adds the octets of a number as it is written.
fn put_word(octets: &mut Vec<u8>, word: &str) -> Result<(), String> {
    if !word.bytes().all(|letter| letter.is_ascii_digit()) {
        return Err(format!(
            "\"{}\" is not a decimal number",
            word.escape_debug()
        ));
    }
    match word.parse::<u64>() {
        Ok(number) => put(octets, number),
        Err(error) if *error.kind() == IntErrorKind::PosOverflow => put_too_large(octets),
        Err(error) => return Err(error.to_string()),
    }
    Ok(())
}

/// A trace as a text, one record to a line.
pub fn written(head: Head, cells: &[Cell]) -> String {
    let mut text = format!(
        "# n and the Trm number; then for each cell the nanoseconds since the one before, its kind\n\
         # (1 forward, 2 backward, 3 data) and the rate before it, in units of 1/512 cell/s\n\
         {} {}\n",
        head.n, head.trm
    );
    for cell in cells {
        let (passed, kind, rate) = (cell.passed, cell.kind as u64, cell.rate);
        writeln!(text, "{passed} {kind} {rate}").expect("a string accepts all");
    }
    text
}

#[cfg(test)]
mod tests {
    use super::*;

    #[test]
    fn numbers_comments_and_lines() {
        let text = "# a trace\n5 7# head\n\n\t0 1   512000 # first\r\n128\n003 1";
        let expected = [5, 7, 0, 1, 0x80, 0xA0, 0x1F, 0x80, 1, 3, 1];
        assert_eq!(octets(text).as_deref(), Ok(&expected[..]));
        assert_eq!(octets(""), Ok(Vec::new()));
    }

    #[test]
    fn what_is_no_number_is_named_with_its_line() {
        let why = octets("5 7\n0 x1 2\n").unwrap_err();
        assert_eq!(why, "line 2: \"x1\" is not a decimal number");
        for word in ["-1", "+1", "1.5", "0x5", "1,000"] {
            assert!(octets(word).is_err(), "{word}");
        }
    }

    #[test]
    fn a_number_over_64_bits_is_refused_by_the_judge() {
        let most = octets("18446744073709551615").unwrap();
        assert_eq!(most, [255, 255, 255, 255, 255, 255, 255, 255, 255, 1]);
        let over = octets("18446744073709551616").unwrap();
        assert_eq!(abr::judge(&over), Err(abr::Refusal::TraceNumber));
    }
}
