//! The pictures of traces, damaged ones too: each is well-formed, and marks what it should.

mod common;

use abr_tools::{draw, excerpt::Excerpt, explain, fault::Unit, scenario::Scenario};
use common::Folder;

/// Whether a picture is well-formed: tags closed in order, attributes quoted and named once,
/// entities known. A part of XML that is enough for what is drawn.
fn well_formed(picture: &str) -> Result<(), String> {
    let (mut open, mut rest) = (Vec::new(), picture);
    while let Some(begin) = rest.find('<') {
        entities(&rest[..begin])?;
        let end = begin + rest[begin..].find('>').ok_or("a tag does not end")?;
        let tag = &rest[begin + 1..end];
        if let Some(name) = tag.strip_prefix('/') {
            if open.pop() != Some(name) {
                return Err(format!("</{name}> closes another"));
            }
        } else {
            let name = attributes(tag.trim_end_matches('/'))?;
            if !tag.ends_with('/') {
                open.push(name);
            }
        }
        rest = &rest[end + 1..];
    }
    match open.pop() {
        Some(name) => Err(format!("<{name}> is not closed")),
        None => entities(rest),
    }
}

/// The name of a tag, whose attributes are as they must be.
fn attributes(tag: &str) -> Result<&str, String> {
    let (name, mut rest) = tag.split_once(' ').unwrap_or((tag, ""));
    let mut names = Vec::new();
    while !rest.trim().is_empty() {
        let (key, value) = rest.split_once("=\"").ok_or(format!("no value: {rest}"))?;
        let (value, behind) = value.split_once('"').ok_or(format!("no end: {value}"))?;
        let key = key.trim();
        if key.contains(' ') || names.contains(&key) || value.contains('<') {
            return Err(format!("attribute {key}"));
        }
        entities(value)?;
        names.push(key);
        rest = behind;
    }
    Ok(name)
}

/// No entity but the three that are needed, and no control character but a line's end.
fn entities(text: &str) -> Result<(), String> {
    let known = ["amp;", "lt;", "gt;"];
    for behind in text.split('&').skip(1) {
        if !known.iter().any(|name| behind.starts_with(name)) {
            return Err(format!("&{behind}"));
        }
    }
    match text
        .chars()
        .find(|letter| letter.is_control() && *letter != '\n')
    {
        Some(letter) => Err(format!("{letter:?}")),
        None => Ok(()),
    }
}

/// The picture of some octets, which is well-formed, and the sentence.
fn drawn(octets: &[u8]) -> (String, String) {
    let outcome = abr::judge(octets);
    let excerpt = Excerpt::of(octets, outcome);
    let sentence = explain::sentence(&excerpt, outcome, Unit::Octets);
    let picture = draw::svg("a trace", &sentence, &excerpt);
    well_formed(&picture).unwrap_or_else(|why| panic!("{why}: {picture}"));
    (picture, sentence)
}

#[test]
fn what_is_not_well_formed_is_seen() {
    assert_eq!(well_formed("<a x=\"1\"><b/>&amp;</a>\n"), Ok(()));
    for wrong in [
        "<a>",
        "<a></b>",
        "<a x=1></a>",
        "<a x=\"1\" x=\"2\"/>",
        "<a>&</a>",
        "<a>\u{1}</a>",
        "<a",
        "<a x=\"</a>",
    ] {
        assert!(well_formed(wrong).is_err(), "{wrong}");
    }
}

#[test]
fn the_pictures_of_the_documents() {
    for name in ["rates", "closed-loop", "transmitter", "slot-cost", "links"] {
        let file = format!("{}/../docs/{name}.svg", env!("CARGO_MANIFEST_DIR"));
        let picture = std::fs::read_to_string(&file).expect("a picture");
        assert_eq!(well_formed(&picture), Ok(()), "{file}");
    }
}

/// A recorded trace, with every octet of its beginning damaged in some ways, and cut there.
/// Sentence and picture say what the library says, and the sentence says why.
#[test]
fn damaged_traces() {
    let traces = Scenario::Random(3).run().expect("nothing is refused");
    let octets = traces[0].1.octets();
    let general =
        [23, 24, 25].map(|number| abr::Refusal::try_from(number).expect("a refusal").text());
    for at in 0..150 {
        for change in [0x01, 0x02, 0x04, 0x40, 0x80, 0xFF] {
            let mut damaged = octets.clone();
            damaged[at] ^= change;
            for damaged in [&damaged[..], &damaged[..at + 1]] {
                let (picture, sentence) = drawn(damaged);
                let mark = match abr::judge(damaged) {
                    Ok(abr::Verdict::Breaks { cell, rule }) => {
                        format!("cell {cell}: rule {}", rule.number())
                    }
                    _ => String::new(),
                };
                assert!(picture.contains(&mark), "{mark}: {picture}");
                assert_eq!(picture.contains("fill-opacity"), !mark.is_empty());
                assert!(
                    !general.iter().any(|text| sentence.ends_with(text)),
                    "{sentence}"
                );
            }
        }
    }
}

/// A broken cell far behind: few cells are drawn, and it is among them.
#[test]
fn a_long_trace_is_shown_in_part() {
    let mut octets = vec![1, 7, 0, 1, 0];
    for cell in 2..100_000 {
        let time = u8::from(cell != 77_777);
        let kind = if cell % 2 == 0 { 3 } else { 1 };
        octets.extend([time, kind, 0x80, 0x80, 0x80, 0x80, 0xF8, 0x3F]);
    }
    let (picture, sentence) = drawn(&octets);
    assert!(
        sentence.starts_with("cell 77,777 breaks rule 2: "),
        "{sentence}"
    );
    assert!(picture.contains("cell 77,777: rule 2"));
    assert!(
        picture.contains("cells 77,730 to 77,793 of 99,999"),
        "{picture}"
    );
    assert!(picture.len() < 20_000, "{} octets", picture.len());
}

#[test]
fn the_program_writes_the_picture() {
    let folder = Folder::new("pictures");
    let name = "a <trace> & \"more\"";
    folder.put(name, &[5, 7, 0, 3, 0]);
    let (status, _, err) = folder.judge(&["--svg", "out.svg", name]);
    assert_eq!((status, err.as_str()), (1, ""));
    let picture = String::from_utf8(folder.get("out.svg")).expect("a text");
    assert_eq!(well_formed(&picture), Ok(()));
    assert!(picture.contains("a &lt;trace&gt; &amp;") && picture.contains("cell 1: rule 1"));
    for octets in [&[][..], &[5, 7], &[5, 7, 0, 1, 0], &[9]] {
        folder.put(name, octets);
        let (status, _, _) = folder.judge(&["--svg", "out.svg", name]);
        assert!(status < 2);
        let picture = String::from_utf8(folder.get("out.svg")).expect("a text");
        assert_eq!(well_formed(&picture), Ok(()));
    }
}
