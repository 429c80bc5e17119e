//! The programs as they are called, and the pictures of the documents.

use std::ffi::OsStr;
use std::fs::File;
use std::io::pipe;
use std::os::unix::ffi::OsStrExt;
use std::path::PathBuf;
use std::process::{Command, Output, Stdio};

const DRAW_TRANSMITTER: &str = env!("CARGO_BIN_EXE_draw_transmitter");

/// Runs a program with this standard output: its exit status and what it printed.
fn run(program: &str, words: &[impl AsRef<OsStr>], to: Stdio) -> (i32, String, String) {
    let mut command = Command::new(program);
    command.args(words).stdout(to).stderr(Stdio::piped());
    let Output {
        status,
        stdout,
        stderr,
    } = command
        .spawn()
        .and_then(|child| child.wait_with_output())
        .expect("it runs");
    let text = |octets| String::from_utf8(octets).expect("a text");
    (
        status.code().expect("an exit status"),
        text(stdout),
        text(stderr),
    )
}

/// Runs `abr-picture`.
fn picture(words: &[&str], to: Stdio) -> (i32, String, String) {
    run(env!("CARGO_BIN_EXE_abr-picture"), words, to)
}

/// A file of numbers with these lines, by its path. Other packages have their files in the same folder.
fn written(name: &str, lines: &str) -> PathBuf {
    let name = format!("transmitter-{name}.numbers");
    let file = PathBuf::from(env!("CARGO_TARGET_TMPDIR")).join(name);
    std::fs::write(&file, lines).expect("a file");
    file
}

/// A run on an output that nobody reads ends in silence; on one that is full it says so.
fn cannot_print(program: &str, words: &[impl AsRef<OsStr>]) {
    let (reader, writer) = pipe().expect("a pipe");
    drop(reader);
    let closed = run(program, words, writer.into());
    assert_eq!(closed, (2, String::new(), String::new()), "{program}");
    let full = File::create("/dev/full").expect("a device");
    let (status, _, err) = run(program, words, full.into());
    assert_eq!(
        (status, err.contains(": standard output: ")),
        (2, true),
        "{err}"
    );
}

/// A picture of the documents.
fn committed(scene: &str) -> String {
    let docs = concat!(env!("CARGO_MANIFEST_DIR"), "/../../docs");
    std::fs::read_to_string(format!("{docs}/{scene}.svg")).expect("a picture")
}

#[test]
fn the_documents_have_what_is_drawn() {
    for scene in ["rates", "closed-loop"] {
        let (status, svg, err) = picture(&[scene], Stdio::piped());
        assert_eq!((status, err.as_str()), (0, ""));
        assert!(
            svg == committed(scene),
            "docs/{scene}.svg is another picture"
        );
    }
}

#[test]
fn with_a_file_the_feedbacks_are_printed() {
    let file = PathBuf::from(env!("CARGO_TARGET_TMPDIR")).join("closed-loop.svg");
    let name = file.to_str().expect("a name");
    let (status, words, err) = picture(&["closed-loop", name], Stdio::piped());
    assert_eq!((status, err.as_str()), (0, ""));
    let svg = std::fs::read_to_string(&file).expect("a picture");
    assert!(svg == committed("closed-loop"));
    let rows: Vec<&str> = words
        .lines()
        .skip_while(|line| !line.starts_with("source"))
        .collect();
    assert_eq!(rows.len(), 11, "{words}");
    for row in &rows[1..] {
        let numbers = row.split_whitespace().skip(4);
        let numbers: Vec<&str> = numbers.filter(|word| *word != "-").collect();
        let number = |word: &&str| word.trim_matches(['(', ')']).parse().expect("a number");
        let numbers: Vec<u64> = numbers.iter().map(number).collect();
        assert!(
            numbers.len() > 4 && numbers[1..].iter().all(|count| *count <= numbers[0]),
            "{row}"
        );
    }
}

#[test]
fn standard_output_cannot_be_written_to() {
    for scene in ["rates", "closed-loop", "--help"] {
        cannot_print(env!("CARGO_BIN_EXE_abr-picture"), &[scene]);
    }
    cannot_print(DRAW_TRANSMITTER, &["--help"]);
    let numbers = written("full", "0 512 512 512 0 1 1\n");
    cannot_print(DRAW_TRANSMITTER, &[&numbers, &numbers]);
}

#[test]
fn wrong_arguments() {
    for words in [
        &[][..],
        &["none"],
        &["rates", "a", "b"],
        &["rates", "/none/out"],
    ] {
        let (status, out, err) = picture(words, Stdio::piped());
        assert_eq!((status, out.as_str()), (2, ""), "{words:?}");
        assert!(err.starts_with("abr-picture: "), "{err}");
    }
}

#[test]
fn the_numbers_of_a_transmitter() {
    let right = written(
        "right",
        "phase 0 1000000 a < b\n0 512 0 512 7 1 1\n2000000 0 0 0 0 2 3\n",
    );
    let (status, svg, err) = run(DRAW_TRANSMITTER, &[&right, &right], Stdio::piped());
    assert_eq!((status, err.as_str()), (0, ""));
    assert!(svg.contains(">a &lt; b</text>") && svg.ends_with("</svg>\n"));
    let wrong = ["phase 0 1", "0 1 2 3 4", "0 1 2 3 4 5 6 7", "0 1 2 x 4 5 6"];
    for (place, line) in wrong.into_iter().enumerate() {
        let file = written(&format!("wrong{place}"), line);
        for files in [[&file, &right], [&right, &file]] {
            let (status, out, err) = run(DRAW_TRANSMITTER, &files, Stdio::piped());
            assert_eq!((status, out.as_str()), (2, ""), "{line}");
            assert!(err.ends_with(&format!(": {line}\n")), "{err}");
        }
    }
    let wrong: [&[&[u8]]; 3] = [&[], &[b"a"], &[b"/none/\xFF", b"/none/b"]];
    for words in wrong {
        let words: Vec<&OsStr> = words.iter().map(|word| OsStr::from_bytes(word)).collect();
        let (status, out, err) = run(DRAW_TRANSMITTER, &words, Stdio::piped());
        assert_eq!((status, out.as_str()), (2, ""), "{words:?}");
        assert!(err.starts_with("draw_transmitter: "), "{err}");
    }
}
