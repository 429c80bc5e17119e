//! What the programs do when standard output cannot be written to: status 2 as documented, and
//! no word of it if the reader has closed the pipe.

mod common;

use std::fs::File;
use std::io::pipe;
use std::process::{Output, Stdio};

use common::{Folder, JUDGE, TRACE};

/// Every call of the programs that prints, with files that the folder has.
const PRINTING: [(&str, &[&str]); 10] = [
    (JUDGE, &["--help"]),
    (JUDGE, &["--version"]),
    (JUDGE, &["good", "good"]),
    (JUDGE, &["--json", "good", "bad"]),
    (JUDGE, &["bad", "good"]),
    (TRACE, &["--help"]),
    (TRACE, &["--version"]),
    (TRACE, &[]),
    (TRACE, &["--text", "-"]),
    (TRACE, &["--list"]),
];

fn folder(name: &str) -> Folder {
    let folder = Folder::new(name);
    folder.put("good", &[5, 7]);
    folder.put("bad", &[5]);
    folder
}

/// Runs a program with this standard output.
fn printed(folder: &Folder, (program, words): (&str, &[&str]), to: Stdio) -> (i32, String) {
    let mut command = folder.command(program, words);
    let child = command.stdout(to).stderr(Stdio::piped()).spawn();
    let Output { status, stderr, .. } =
        child.expect("it runs").wait_with_output().expect("it ends");
    let err = String::from_utf8(stderr).expect("a text");
    (status.code().expect("an exit status"), err)
}

#[test]
fn a_closed_pipe() {
    let folder = folder("closed");
    for call in PRINTING {
        let (reader, writer) = pipe().expect("a pipe");
        drop(reader);
        assert_eq!(
            printed(&folder, call, writer.into()),
            (2, String::new()),
            "{call:?}"
        );
    }
}

#[test]
fn a_full_disk() {
    let folder = folder("full");
    for call in PRINTING {
        let full = File::create("/dev/full").expect("a device");
        let (status, err) = printed(&folder, call, full.into());
        assert_eq!(
            (status, err.contains(": standard output: ")),
            (2, true),
            "{call:?}: {err}"
        );
    }
}

/// What cannot be said is left out; the status is as always.
#[test]
fn standard_error_cannot_be_written_to() {
    let folder = folder("mute");
    for (program, words) in [
        (JUDGE, &["missing"][..]),
        (JUDGE, &["--wrong"]),
        (TRACE, &["a", "b"]),
        (TRACE, &["none/out"]),
    ] {
        let full = File::create("/dev/full").expect("a device");
        let status = folder.command(program, words).stderr(full).status();
        assert_eq!(status.expect("it runs").code(), Some(2), "{words:?}");
    }
}
