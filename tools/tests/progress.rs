//! The progress line: each part of the work has one, and none is left.

mod common;

use std::time::Duration;

use abr_tools::input;
use abr_tools::progress::Progress;
use common::Folder;

/// What is shown while a file is judged, with this pause between lines.
fn shown(as_text: bool, pause: Duration) -> String {
    // One folder a call: the tests run at the same time, and each takes its folder away.
    let folder = Folder::new(&format!("shown-{as_text}-{}", pause.as_secs()));
    folder.put("trace", if as_text { b"5 7" } else { &[5, 7] });
    let mut line = Vec::new();
    let progress = Progress::to(Some(Box::new(&mut line)), pause, "a name");
    let path = folder.path.join("trace");
    let judged = input::judged(path.as_os_str(), as_text, progress);
    assert_eq!(judged.expect("it is read").0, Ok(abr::Verdict::Passes));
    String::from_utf8(line).expect("a text")
}

#[test]
fn every_part_has_a_line() {
    let octets = [" read", " are being judged, ", " are being explained, "];
    let text = [
        octets[0],
        " of text are being parsed, ",
        octets[1],
        octets[2],
    ];
    for (as_text, parts) in [(false, &octets[..]), (true, &text)] {
        let shown = shown(as_text, Duration::ZERO);
        let mut lines: Vec<&str> = shown.split("\r\x1b[K").collect();
        // The terminal's line is empty before and afterwards.
        assert_eq!((lines.remove(0), lines.pop()), ("", Some("")), "{shown:?}");
        assert!(
            lines.iter().all(|line| line.starts_with("a name: ")),
            "{shown:?}"
        );
        for part in parts {
            let (of_part, others) = lines.iter().partition(|line| line.contains(part));
            assert!(
                !Vec::is_empty(&of_part) && lines.starts_with(&of_part),
                "{part}: {shown:?}"
            );
            lines = others;
        }
        assert_eq!(lines, [""; 0], "{shown:?}");
    }
}

#[test]
fn short_work_has_none() {
    for as_text in [false, true] {
        assert_eq!(shown(as_text, Duration::from_secs(3_600)), "");
    }
}
