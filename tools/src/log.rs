//! Traces recorded from the log of a transmitter, which is any text: lines that begin with
//! `abr-trace` say what was opened, sent and closed, and the others are left to its reader.

use std::collections::HashMap;
use std::io::BufRead;
use std::ops::RangeInclusive;

use abr::{Address, RATE_MAX, TIME_MAX};

use crate::arguments::address;
use crate::record::Recorder;
use crate::trace::{Head, Kind};

/// The first word of the lines that are read.
const MARK: &[u8] = b"abr-trace";

/// The connections of a log, in the order in which they were opened.
#[derive(Default)]
struct Log {
    traces: Vec<(Address, Recorder)>,
    /// The places of those that are open.
    open: HashMap<Address, usize>,
}

/// Reads a log: every connection with the trace of its cells, once for each time that it was
/// opened. The error names the line.
pub fn read(mut from: impl BufRead) -> Result<Vec<(Address, Recorder)>, String> {
    let (mut log, mut octets) = (Log::default(), Vec::new());
    for number in 1_u64.. {
        octets.clear();
        let length = from.read_until(b'\n', &mut octets);
        if length.map_err(|error| error.to_string())? == 0 {
            break;
        }
        let line = octets.trim_ascii();
        if line.split(u8::is_ascii_whitespace).next() == Some(MARK) {
            let words = String::from_utf8_lossy(&line[MARK.len()..]);
            let words: Vec<&str> = words.split_whitespace().collect();
            log.line(&words)
                .map_err(|why| format!("line {number}: {why}"))?;
        }
    }
    Ok(log.traces)
}

impl Log {
    /// A line, without its first word.
    fn line(&mut self, words: &[&str]) -> Result<(), String> {
        match *words {
            ["open", at, n, trm] => {
                let n = number("n", n, 1..=8)?;
                let trm = number("the Trm number", trm, 0..=7)?;
                self.opened(address(at)?, Head { n, trm });
                Ok(())
            }
            ["cell", at, time, kind, rate] => {
                let time = number("the time", time, 0..=TIME_MAX)?;
                let kind = number("the kind", kind, 0..=3)?;
                let rate = number("the rate", rate, 0..=RATE_MAX)?;
                self.sent(address(at)?, time, kind, rate)
            }
            ["close", at] => {
                let at = address(at)?;
                let closed = self.open.remove(&at);
                closed.map(drop).ok_or(format!("{at} is not open"))
            }
            _ => Err(
                "it is none of open VPI/VCI N TRM, cell VPI/VCI TIME KIND RATE, close VPI/VCI"
                    .to_owned(),
            ),
        }
    }

    /// A connection is opened. One that was open before begins anew: its close was not logged.
    fn opened(&mut self, at: Address, head: Head) {
        self.open.insert(at, self.traces.len());
        self.traces.push((at, Recorder::of(head)));
    }

    /// A slot has sent a cell, or none.
    fn sent(&mut self, at: Address, time: u64, kind: u64, rate: u64) -> Result<(), String> {
        let kind = match kind {
            0 => return Ok(()), // an idle slot, so that a transmitter may log every answer
            1 => Kind::Forward,
            2 => Kind::Backward,
            _ => Kind::Data,
        };
        // A member's data belongs to the trace of its path.
        let path = || self.open.get(&Address::of_path(at.vpi));
        let place = self.open.get(&at).or_else(path);
        let recorder = &mut self.traces[*place.ok_or(format!("{at} is not open"))?].1;
        match recorder.last() {
            Some(last) if last > time => Err(format!(
                "the time is {time}, and that of the cell before {last}"
            )),
            _ => {
                recorder.add(time, kind, rate);
                Ok(())
            }
        }
    }
}

/// A number that says this and has a value in range.
fn number(field: &str, word: &str, range: RangeInclusive<u64>) -> Result<u64, String> {
    let (from, to) = (range.start(), range.end());
    let wrong = || {
        format!(
            "{field} is \"{}\", and must be {from} to {to}",
            word.escape_debug()
        )
    };
    let digits = word.bytes().all(|letter| letter.is_ascii_digit());
    let value = word
        .parse()
        .ok()
        .filter(|value| digits && range.contains(value));
    value.ok_or_else(wrong)
}

#[cfg(test)]
mod tests {
    use super::*;

    /// Each connection of a log with its trace.
    fn traces(log: &[u8]) -> Result<Vec<(String, Vec<u8>)>, String> {
        let octets = |(at, recorder): &(Address, Recorder)| (at.to_string(), recorder.octets());
        read(log).map(|traces| traces.iter().map(octets).collect())
    }

    #[test]
    fn what_is_said_of_connections() {
        let log = b"begins\nabr-trace open 1/32 5 7\r\n\xFF\xFE\n abr-trace  cell 1/32 100 1 9\n\
            abr-trace open 2/32 1 0\nabr-tracer cell\nabr-trace cell 0/0 101 0 0\n\
            abr-trace cell 1/32 105 3 8\nabr-trace cell 2/32 105 1 7";
        let expected = [
            ("1/32".to_owned(), vec![5, 7, 0, 1, 9, 5, 3, 8]),
            ("2/32".to_owned(), vec![1, 0, 0, 1, 7]),
        ];
        assert_eq!(traces(log).as_deref(), Ok(&expected[..]));
        assert_eq!(traces(b"").as_deref(), Ok(&[][..]));
    }

    /// A pair that is opened again is another connection, whether its close was logged or not.
    #[test]
    fn opened_again() {
        for close in ["", "abr-trace close 1/32\n"] {
            let log = format!(
                "abr-trace open 1/32 5 7\nabr-trace cell 1/32 9 1 2\n{close}\
                 abr-trace open 1/32 6 7\nabr-trace cell 1/32 8 1 3\n"
            );
            let found = traces(log.as_bytes()).unwrap();
            assert_eq!(found[0].1, [5, 7, 0, 1, 2]);
            assert_eq!(found[1].1, [6, 7, 0, 1, 3]);
        }
    }

    /// Data of a member goes to its path, unless its pair is a channel of its own.
    #[test]
    fn members() {
        let log = b"abr-trace open 2/6 5 7\nabr-trace open 2/40 5 7\nabr-trace cell 2/6 1 1 5\n\
            abr-trace cell 2/33 3 3 5\nabr-trace cell 2/40 4 1 5\nabr-trace cell 2/34 5 3 5\n";
        let found = traces(log).unwrap();
        assert_eq!(found[0].1, [5, 7, 0, 1, 5, 2, 3, 5, 2, 3, 5]);
        assert_eq!(found[1].1, [5, 7, 0, 1, 5]);
    }

    const FORMS: &str =
        "it is none of open VPI/VCI N TRM, cell VPI/VCI TIME KIND RATE, close VPI/VCI";
    /// Lines, each with what is wrong.
    const WRONG: [(&str, &str); 14] = [
        ("", FORMS),
        ("opened 1/32 5 7", FORMS),
        ("open 1/32 5", FORMS),
        ("cell 1/32 0 1 2 3", FORMS),
        ("open 1/33 0 7", "n is \"0\", and must be 1 to 8"),
        ("open 1/33 9 7", "n is \"9\", and must be 1 to 8"),
        (
            "open 1/33 5 8",
            "the Trm number is \"8\", and must be 0 to 7",
        ),
        (
            "open 1 5 7",
            "\"1\" is no connection; one is written VPI/VCI, as 1/32",
        ),
        ("cell 1/32 6 4 2", "the kind is \"4\", and must be 0 to 3"),
        (
            "cell 1/32 +6 1 2",
            "the time is \"+6\", and must be 0 to 4611686018427387904",
        ),
        (
            "cell 1/32 6 1 1e3",
            "the rate is \"1e3\", and must be 0 to 2196875771904",
        ),
        ("cell 1/33 6 1 2", "1/33 is not open"),
        ("close 1/33", "1/33 is not open"),
        (
            "cell 1/32 4 3 2",
            "the time is 4, and that of the cell before 5",
        ),
    ];

    #[test]
    fn what_is_wrong_is_named_with_its_line() {
        for (line, why) in WRONG {
            let log =
                format!("abr-trace open 1/32 5 7\n\nabr-trace cell 1/32 5 1 2\nabr-trace {line}\n");
            assert_eq!(
                traces(log.as_bytes()),
                Err(format!("line 4: {why}")),
                "{line}"
            );
        }
        let closed = b"abr-trace open 1/32 5 7\nabr-trace close 1/32\nabr-trace cell 1/32 5 1 2\n";
        assert_eq!(traces(closed), Err("line 3: 1/32 is not open".to_owned()));
    }
}
