//! `abr-judge` and `abr-trace` as they are called: exit statuses and sentences.

mod common;

use abr_tools::text;
use common::Folder;

/// Octets and the sentence that they get.
const SENTENCES: [(&[u8], &str); 22] = [
    (&[5, 7], "passes: it has no cell"),
    (&[5, 7, 0, 1, 0], "passes: its one cell is forward"),
    (&[], "refused with 24: the trace is empty"),
    (&[5], "refused with 24: the trace ends before the Trm number"),
    (&[0x85], "refused with 24: the trace ends inside n"),
    (&[5, 7, 0], "refused with 24: the trace ends before the kind of cell 1"),
    (&[5, 7, 0, 1, 0x80], "refused with 24: the trace ends inside the rate of cell 1"),
    (&[0], "refused with 25: at octet 1, n is 0, and must be 1 to 8"),
    (&[9], "refused with 25: at octet 1, n is 9, and must be 1 to 8"),
    (&[0x89, 1], "refused with 25: at octet 2, n is 137, and must be 1 to 8"),
    (&[5, 8], "refused with 25: at octet 2, the Trm number is 8, and must be 0 to 7"),
    (
        &[5, 7, 1],
        "refused with 25: at octet 3, the time of cell 1 is 1, and must be 0, since it is the first",
    ),
    (
        &[5, 7, 0, 4],
        "refused with 25: at octet 4, the kind of cell 1 is 4, and must be 1 (forward), 2 (backward) or 3 (data)",
    ),
    (
        &[5, 7, 0, 1, 0x81, 0x80, 0x80, 0x80, 0xF8, 0x3F],
        "refused with 25: at octet 10, the rate of cell 1 is 2,196,875,771,905, and must be at most 2,196,875,771,904",
    ),
    (
        &[5, 7, 0, 1, 0, 0x81, 0x80, 0x80, 0x80, 0x80, 0x80, 0x80, 0x80, 0x40],
        "refused with 25: at octet 14, the time of cell 2 is 4,611,686,018,427,387,905, and with it the times sum to more than 2^62 ns",
    ),
    (&[5, 0x80, 0], "refused with 23: at octet 3, the Trm number is not in shortest form"),
    (
        &[5, 7, 255, 255, 255, 255, 255, 255, 255, 255, 255, 2],
        "refused with 23: at octet 12, the time of cell 1 has more than 64 bits",
    ),
    (
        &[5, 7, 0, 3, 0],
        "cell 1 breaks rule 1: the first cell must be a forward cell, and it is a data cell",
    ),
    (
        &[5, 7, 0, 1, 0, 0xBF, 0x84, 0x3D, 3, 0x80, 0xA0, 0x1F],
        "cell 2 breaks rule 2: at rate 512,000 (1000.000 cells/s) it must come 1,000,000 ns or more after cell 1, and it comes 999,999 ns after it",
    ),
    (
        &[5, 7, 0, 1, 0, 5, 2, 0],
        "cell 2 breaks rule 2: at rate 0 no cell may follow, and it comes 5 ns after cell 1",
    ),
    (
        &[5, 7, 0, 1, 0, 1, 1, 0x80, 0x80, 0x80, 0x80, 0xF8, 0x3F],
        "cell 2 breaks rule 3: no forward cell is due, 0 cells and 1 ns after the last forward cell, cell 1 (Nrm is 32, Trm 100,000,000 ns), and it is a forward cell",
    ),
    (
        &[1, 7, 0, 1, 0, 1, 3, 0x80, 0x80, 0x80, 0x80, 0xF8, 0x3F, 1, 2, 0x80, 0x80, 0x80, 0x80, 0xF8, 0x3F],
        "cell 3 breaks rule 3: a forward cell is due, 1 cell and 2 ns after the last forward cell, cell 1 (Nrm - 1 is 1), and it is a backward cell",
    ),
];

#[test]
fn every_sentence_and_its_status() {
    let folder = Folder::new("sentences");
    for (octets, sentence) in SENTENCES {
        folder.put("trace", octets);
        let status = i32::from(!sentence.starts_with("passes"));
        let (found, out, err) = folder.judge(&["trace"]);
        assert_eq!(out, format!("trace: {sentence}.\n"));
        assert_eq!((found, err.as_str()), (status, ""), "{sentence}");
    }
}

/// Trm has passed, and two cells have gone.
#[test]
fn the_sentence_for_trm() {
    let folder = Folder::new("trm");
    folder.put("trace", b"8 0 # Trm is 781,250 ns\n0 1 0\n1 3 2196875771904\n1 3 2196875771904\n781248 3 2196875771904\n");
    let (status, out, _) = folder.judge(&["--text", "trace"]);
    let due = "a forward cell is due, 2 cells and 781,250 ns after the last forward cell, cell 1";
    let why = "(two cells and Trm, 781,250 ns), and it is a data cell";
    assert_eq!(out, format!("trace: cell 4 breaks rule 3: {due} {why}.\n"));
    assert_eq!(status, 1);
}

#[test]
fn texts_are_counted_in_numbers() {
    let folder = Folder::new("texts");
    folder.put(
        "trace",
        b"5 7\n0 1 512000\n1000000 4 512000 # no such kind\n",
    );
    let (status, out, _) = folder.judge(&["--text", "trace"]);
    assert!(
        out.starts_with("trace: refused with 25: at number 7, the kind of cell 2 is 4, "),
        "{out}"
    );
    assert_eq!(status, 1);
    folder.put("trace", b"5 7\n0 1 18446744073709551616");
    let (status, out, _) = folder.judge(&["--text", "trace"]);
    assert_eq!(
        out,
        "trace: refused with 23: at number 5, the rate of cell 1 has more than 64 bits.\n"
    );
    assert_eq!(status, 1);
}

#[test]
fn the_status_of_several_traces_is_the_highest() {
    let folder = Folder::new("several");
    folder.put("good", &[5, 7]);
    folder.put("bad", &[5]);
    assert_eq!(folder.judge(&["good", "good"]).0, 0);
    assert_eq!(folder.judge(&["good", "bad", "good"]).0, 1);
    let (status, out, err) = folder.judge(&["bad", "missing", "good"]);
    assert_eq!((status, out.lines().count()), (2, 2)); // the others are judged all the same
    assert!(err.starts_with("abr-judge: missing: "), "{err}");
}

/// Every connection of the scenarios, as octets and as numbers.
#[test]
fn what_is_recorded_passes() {
    let folder = Folder::new("recorded");
    let seeds: Vec<String> = (0..6).map(|seed: u32| seed.to_string()).collect();
    let mut scenarios = vec![
        vec!["--connection", "1/32"],
        vec!["--connection", "1/33"],
        vec![],
    ];
    scenarios.extend(
        seeds
            .iter()
            .map(|seed| vec!["--scenario", "random", "--seed", seed]),
    );
    for scenario in scenarios {
        let with = |more: &[&'static str]| -> (i32, String, String) {
            folder.trace(&[&scenario[..], more].concat())
        };
        assert_eq!(
            with(&["octets"]),
            (0, String::new(), String::new()),
            "{scenario:?}"
        );
        let (status, text, _) = with(&["--text"]);
        assert_eq!(status, 0);
        folder.put("text", text.as_bytes());
        assert_eq!(text::octets(&text), Ok(folder.get("octets")));
        let (status, out, _) = folder.judge(&["octets"]);
        assert_eq!(status, 0, "{scenario:?}: {out}");
        assert!(
            out.starts_with("octets: passes: ") && out.contains(" cells in "),
            "{out}"
        );
        let (status, other, _) = folder.judge(&["--text", "text"]);
        assert_eq!((status, other.replace("text:", "octets:")), (0, out));
    }
}

/// A long trace is judged without a word to standard error, which is no terminal here.
#[test]
fn no_progress_line_without_a_terminal() {
    let folder = Folder::new("long");
    let mut octets = vec![1, 7, 0, 1, 0];
    for cell in 0..3_000_000 {
        let kind = if cell % 2 == 0 { 3 } else { 1 };
        octets.extend([1, kind, 0x80, 0x80, 0x80, 0x80, 0xF8, 0x3F]);
    }
    octets.push(0x80);
    folder.put("long", &octets);
    let (status, out, err) = folder.judge(&["long"]);
    assert_eq!(
        out,
        "long: refused with 24: the trace ends inside the time of cell 3,000,002.\n"
    );
    assert_eq!((status, err.as_str()), (1, ""));
}
