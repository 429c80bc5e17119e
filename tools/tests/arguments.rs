//! The arguments of `abr-judge` and `abr-trace`: options, files, and what is wrong with them.

mod common;

use std::ffi::OsStr;
use std::os::unix::ffi::OsStrExt;
use std::process::Stdio;

use common::{Folder, JUDGE, TRACE};

fn folder(name: &str) -> Folder {
    let folder = Folder::new(name);
    folder.put("good", &[5, 7]);
    folder.put("bad", &[5]);
    folder.put("text", b"5 7 x\n");
    folder.put("octets", &[0xFF, 0xFE]);
    folder
}

#[test]
fn both_have_help() {
    let folder = folder("help");
    for (status, out, err) in [
        folder.judge(&["--help"]),
        folder.judge(&["good", "--wrong", "--help"]),
        folder.trace(&["--text", "--help"]),
    ] {
        assert_eq!((status, err.as_str()), (0, ""));
        assert!(out.starts_with("usage: abr-"), "{out}");
        assert!(out.contains("Exit status: 0"), "{out}");
    }
}

/// The version is the library's, which the Makefile has too.
#[test]
fn both_have_a_version() {
    let folder = folder("version");
    let makefile = concat!(env!("CARGO_MANIFEST_DIR"), "/../Makefile");
    let makefile = std::fs::read_to_string(makefile).expect("a file");
    let line = makefile
        .lines()
        .find_map(|line| line.strip_prefix("VERSION := "));
    let version = line.expect("a version");
    for (name, (status, out, err)) in [
        ("abr-judge", folder.judge(&["--version"])),
        (
            "abr-judge",
            folder.judge(&["missing", "--wrong", "--version"]),
        ),
        ("abr-trace", folder.trace(&["--version"])),
    ] {
        assert_eq!((status, err.as_str()), (0, ""));
        assert_eq!(out, format!("{name} {version}\n"));
    }
    let (status, out, _) = folder.judge(&["good", "--", "--version"]);
    assert_eq!((status, out.lines().count()), (2, 1));
}

/// Behind `--` every argument is a file.
#[test]
fn files_that_look_like_options() {
    let folder = folder("dashes");
    for name in ["--help", "--text", "-x"] {
        let (status, _, err) = folder.judge(&["--", name]);
        assert_eq!(status, 2, "{name}");
        assert!(err.starts_with(&format!("abr-judge: {name}: ")), "{err}");
        assert_eq!(
            folder.trace(&["--", name]),
            (0, String::new(), String::new())
        );
        let (status, out, _) = folder.judge(&["good", "--", name]);
        assert_eq!((status, out.lines().count()), (0, 2), "{out}");
    }
}

/// `-` is standard input of one program, and standard output of the other.
#[test]
fn standard_input_and_output() {
    let folder = folder("standard");
    let recorded = folder.command(TRACE, &["-"]).stdout(Stdio::piped()).spawn();
    let pipe = recorded.expect("it runs").stdout.expect("a pipe");
    let judged = folder.command(JUDGE, &["-"]).stdin(pipe).output();
    let judged = judged.expect("it runs");
    let out = String::from_utf8_lossy(&judged.stdout).into_owned();
    assert!(out.starts_with("-: passes: "), "{out}");
    assert_eq!(folder.trace(&["--text", "-"]), folder.trace(&["--text"]));
    assert_eq!(
        folder.trace(&["--text", "--", "-"]),
        folder.trace(&["--text"])
    );
    assert!(!folder.path.join("-").exists());
}

/// Without a file `abr-judge` reads standard input, with every option.
#[test]
fn no_file_is_standard_input() {
    let folder = folder("nameless");
    for words in [&[][..], &["--"], &["--svg", "out"], &["-"]] {
        let recorded = folder.command(TRACE, &[]).stdout(Stdio::piped()).spawn();
        let pipe = recorded.expect("it runs").stdout.expect("a pipe");
        let judged = folder.command(JUDGE, words).stdin(pipe).output();
        let judged = judged.expect("it runs");
        let out = String::from_utf8_lossy(&judged.stdout).into_owned();
        assert!(out.starts_with("-: passes: "), "{words:?}: {out}");
        assert_eq!(judged.status.code(), Some(0), "{words:?}");
    }
    assert!(folder.path.join("out").exists());
    // Nothing to read is an empty trace.
    let (status, out, _) = folder.judge(&["--text"]);
    assert_eq!(out, "-: refused with 24: the trace is empty.\n");
    assert_eq!(status, 1);
}

/// Those of `abr-judge` that have status 2. Nothing is judged or drawn.
#[test]
fn wrong_arguments_of_the_judge() {
    let folder = folder("wrong-judge");
    for (words, why) in [
        (&["--svg"][..], "--svg needs a file"),
        (&["--svg", "--text", "good"], "--svg needs a file"),
        (&["--svg", "-", "good"], "--svg needs a file"),
        (&["--wrong", "good"], "unknown option --wrong"),
        (
            &["--svg", "out", "good", "good"],
            "--svg draws one trace only",
        ),
        (&["-", "-"], "standard input can be judged once only"),
        (
            &["-", "good", "--", "-"],
            "standard input can be judged once only",
        ),
    ] {
        let said = format!("abr-judge: {why}; --help says more\n");
        assert_eq!(folder.judge(words), (2, String::new(), said), "{words:?}");
    }
    for name in ["--text", "-", "out"] {
        assert!(!folder.path.join(name).exists(), "{name}");
    }
}

/// Files that cannot be read or written have status 2 too, without a word about the arguments.
#[test]
fn files_of_the_judge() {
    let folder = folder("files-judge");
    for (words, why) in [
        (
            &["--text", "text"][..],
            "text: line 1: \"x\" is not a decimal number",
        ),
        (&["--text", "octets"], "octets: it is no text"),
        (&["--svg", "none/out", "good"], "none/out: "),
        (&["."], ".: "),
        (&["missing"], "missing: "),
    ] {
        let (status, _, err) = folder.judge(words);
        assert!(err.starts_with(&format!("abr-judge: {why}")), "{err}");
        assert_eq!(
            (status, err.contains("--help")),
            (2, false),
            "{words:?}: {err}"
        );
    }
}

#[test]
fn wrong_arguments_of_the_recorder() {
    let folder = folder("wrong-trace");
    for (words, help) in [
        (&["--scenario", "three"][..], true),
        (&["--scenario"], true),
        (&["--seed", "1"], true),
        (&["--scenario", "random", "--seed", "x"], true),
        (&["--connection", "9", "x"], true),
        (&["--wrong"], true),
        (&["a", "b"], true),
        (&["a", "--", "b"], true),
        (&["--log"], true),
        (&["--log", "--text"], true),
        (&["--log", "good", "--scenario", "two"], true),
        (&["--log", "good", "--seed", "1"], true),
        (&["--opening", "1"], true),
        (&["--log", "good", "--opening", "0"], true),
        (&["--log", "good", "--opening"], true),
        (&["--list", "--text"], true),
        (&["--list", "--connection", "1/32"], true),
        (&["--list", "--log", "good", "--opening", "1"], true),
        (&["--log", "missing"], false),
        (&["--log", "good"], false),            // nothing is opened there
        (&["--connection", "9/9", "x"], false), // the message names those that there are
        (&["none/out"], false),
    ] {
        let (status, out, err) = folder.trace(words);
        assert_eq!((status, out.as_str()), (2, ""), "{words:?}");
        assert!(err.starts_with("abr-trace: "), "{err}");
        assert_eq!(err.ends_with("; --help says more\n"), help, "{err}");
    }
}

/// A file's name need not be a text.
#[test]
fn names_that_are_no_text() {
    let folder = folder("names");
    let name = OsStr::from_bytes(b"a\xFFb");
    let recorded = folder.command(TRACE, &[]).arg(name).status();
    assert_eq!(recorded.expect("it runs").code(), Some(0));
    let judged = folder.command(JUDGE, &["--svg", "out"]).arg(name).output();
    let judged = judged.expect("it runs");
    assert_eq!(judged.status.code(), Some(0));
    let out = String::from_utf8(judged.stdout).expect("a text");
    assert!(out.starts_with("a\u{FFFD}b: passes: "), "{out}");
}
