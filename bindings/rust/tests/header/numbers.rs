//! The numbers and texts of the binding are those of the header; one version in all that
//! carries one.

use abr::{
    ffi, Cell, Connection, ConnectionKind, Kind, Received, ReceivedKind, Refusal, Rule, Sent,
};

use super::HEADER;

/// The number and the comment of the line `#define NAME number` or
/// `#define NAME number /* comment */`.
fn defined(name: &str) -> (u64, &'static str) {
    let start = format!("#define {name} ");
    let line = HEADER.lines().find(|line| line.starts_with(&start));
    let rest = &line.unwrap_or_else(|| panic!("{name} is not in the header"))[start.len()..];
    let (value, comment) = rest.split_once("/*").unwrap_or((rest, ""));
    (number(value.trim()), comment.trim_end_matches("*/").trim())
}

/// A number as the header writes it: `7u`, `0x7FFFu` or `UINT64_C(7)`.
fn number(text: &str) -> u64 {
    let digits = text
        .trim_start_matches("UINT64_C(")
        .trim_end_matches(['u', ')']);
    let parsed = match digits.strip_prefix("0x") {
        Some(digits) => u64::from_str_radix(digits, 16),
        None => digits.parse(),
    };
    assert!(text.ends_with(['u', ')']), "{text} is not unsigned");
    parsed.unwrap_or_else(|_| panic!("{text} is not a number"))
}

/// The value of a constant of the header.
fn value(name: &str) -> u64 {
    defined(name).0
}

/// The limits by their names in the header.
fn limits() -> Vec<(&'static str, u64)> {
    vec![
        ("CELL_OCTETS", abr::CELL_OCTETS as u64),
        ("MEMBERS_MAX", abr::MEMBERS_MAX as u64),
        ("VPI_MAX", abr::VPI_MAX.into()),
        ("VCI_MIN", abr::VCI_MIN.into()),
        ("VCI_MAX", abr::VCI_MAX.into()),
        ("PATH_VCI", abr::PATH_VCI.into()),
        ("TIME_MAX", abr::TIME_MAX),
        ("NEVER", ffi::ABR_NEVER),
        ("WAITING_MAX", abr::WAITING_MAX),
        ("MAKE_INTERVAL", abr::MAKE_INTERVAL),
        ("OUT_OF_RATE_INTERVAL", abr::OUT_OF_RATE_INTERVAL),
        ("LEVEL_MAX", abr::LEVEL_MAX.into()),
        ("DEMANDS_MAX", abr::DEMANDS_MAX as u64),
        ("RATE_ONE", abr::RATE_ONE),
        ("RATE_MAX", abr::RATE_MAX),
        ("CODE_MAX", abr::CODE_MAX.into()),
        ("CDF_ZERO", abr::CDF_ZERO.into()),
        ("TBE_MAX", abr::TBE_MAX.into()),
        ("FRTT_MAX", abr::FRTT_MAX.into()),
        ("ADTF_MAX", abr::ADTF_MAX.into()),
    ]
}

/// All numbers of the header are limits but those that other tests here look at.
#[test]
fn the_limits_are_those_of_the_header() {
    let others = [
        "CONNECTIONS",
        "COMPARISONS_MAX",
        "VERSION",
        "OK",
        "CHANNEL",
        "PATH",
        "MEMBER",
        "CELL_DATA",
        "CELL_RM",
    ];
    let groups = ["HOUSE_", "SENT_", "RECEIVED_", "RULE_", "REFUSED_"];
    let header: Vec<(&str, u64)> = HEADER
        .lines()
        .filter_map(|line| line.strip_prefix("#define ABR_")?.split_once(' '))
        .filter(|(_, value)| value.starts_with("UINT64_C(") || value.starts_with(char::is_numeric))
        .filter(|(name, _)| !others.contains(name))
        .filter(|(name, _)| !groups.iter().any(|group| name.starts_with(group)))
        .map(|(name, _)| (name, value(&format!("ABR_{name}"))))
        .collect();
    assert_eq!(header, limits());
    assert_eq!(abr::rate(abr::CODE_MAX), Ok(abr::RATE_MAX));
}

/// The editions of the header: how many connections, and the most comparisons of a call.
fn editions() -> Vec<(usize, u32)> {
    let lines: Vec<&str> = HEADER.lines().collect();
    let pairs = lines.windows(2).filter_map(|pair| {
        let condition = pair[0]
            .strip_prefix("#if ")
            .or(pair[0].strip_prefix("#elif "))?;
        let connections = condition.strip_prefix("ABR_CONNECTIONS == ")?;
        let comparisons = pair[1].strip_prefix("#define ABR_COMPARISONS_MAX ")?;
        Some((connections.parse().ok()?, number(comparisons) as u32))
    });
    pairs.collect()
}

/// The binding is of one of them, of that of the header unless the environment chose another; build.rs knows all.
#[test]
fn the_editions_are_those_of_the_header() {
    assert_eq!(editions(), [(16, 4), (64, 6), (256, 8), (1_024, 10)]);
    assert!(editions().contains(&(abr::CONNECTIONS_MAX, abr::COMPARISONS_MAX)));
    let build = include_str!("../../build.rs");
    let known: Vec<String> = editions()
        .iter()
        .map(|(connections, _)| format!("\"{connections}\""))
        .collect();
    assert!(build.contains(&format!("[{}]", known.join(", "))));
    let default = "const CONNECTIONS: &str = \"1024\";";
    assert!(HEADER.contains("\n#define ABR_CONNECTIONS 1024\n") && build.contains(default));
    let chosen = option_env!("ABR_CONNECTIONS").unwrap_or("1024");
    assert_eq!(abr::CONNECTIONS_MAX.to_string(), chosen);
    assert_eq!(abr::Table::new().link().connections_max.to_string(), chosen);
}

/// The names of a group of the header's constants, each with its number.
fn group(start: &str) -> impl Iterator<Item = (&'static str, u32)> + '_ {
    HEADER.lines().filter_map(move |line| {
        let rest = line.strip_prefix("#define ")?.strip_prefix(start)?;
        let name = rest.split(' ').next()?;
        Some((name, value(&format!("{start}{name}")) as u32))
    })
}

/// What a slot sends by its number: a binding's kind, and nothing else.
#[test]
fn the_kinds_of_a_slot_are_those_of_the_header() {
    let kinds = group("ABR_SENT_").map(|(name, kind)| {
        let sent = ffi::abr_sent {
            kind,
            ..ffi::abr_sent::default()
        };
        (name, Option::<Sent>::from(sent).map(|sent| sent.kind))
    });
    let expected = [
        ("IDLE", None),
        ("FORWARD", Some(Kind::Forward)),
        ("TURNED", Some(Kind::Turned)),
        ("DATA", Some(Kind::Data)),
    ];
    assert_eq!(kinds.collect::<Vec<_>>(), expected);
}

/// What was received by its number.
#[test]
fn the_kinds_of_received_cells_are_those_of_the_header() {
    let kinds = group("ABR_RECEIVED_").map(|(name, kind)| {
        let received = ffi::abr_received {
            kind,
            ..ffi::abr_received::default()
        };
        (name, Received::from(received).kind)
    });
    let expected = [
        ("FORWARD", ReceivedKind::Forward),
        ("BACKWARD", ReceivedKind::Backward),
        ("DATA", ReceivedKind::Data),
    ];
    assert_eq!(kinds.collect::<Vec<_>>(), expected);
}

/// What a pair stands for by its number.
#[test]
fn the_kinds_of_a_connection_are_those_of_the_header() {
    for (name, expected) in [
        ("ABR_CHANNEL", ConnectionKind::Channel),
        ("ABR_PATH", ConnectionKind::Path),
        ("ABR_MEMBER", ConnectionKind::Member),
    ] {
        let read = ffi::abr_connection {
            kind: value(name) as u32,
            ..ffi::abr_connection::default()
        };
        assert_eq!(Connection::from(read).kind, expected, "{name}");
    }
}

/// What a read gives by its number.
#[test]
fn the_sorts_of_a_cell_are_those_of_the_header() {
    let cell = |name: &str| {
        let kind = value(name) as u32;
        Cell::from(ffi::abr_cell {
            kind,
            ..ffi::abr_cell::default()
        })
    };
    assert!(matches!(cell("ABR_CELL_DATA"), Cell::Data { .. }));
    assert!(matches!(cell("ABR_CELL_RM"), Cell::Rm(_)));
}

/// A version, three numbers, as one.
fn version(text: &str) -> u32 {
    let parts = text.split('.').map(|part| part.parse::<u32>().unwrap());
    parts.fold(0, |version, part| version << 8 | part)
}

/// The versions that serve are those of the header, as they are recorded.
#[test]
fn the_versions_that_serve_are_those_of_the_header() {
    let record = include_str!("../../../../tests/interface/1.0.txt");
    let pairs = record
        .lines()
        .filter_map(|line| line.strip_prefix("matches header "));
    let mut answers = [0, 0];
    for line in pairs {
        let (versions, answer) = line.split_once(": ").unwrap();
        let (header, library) = versions.split_once(", library ").unwrap();
        let serves = ffi::serves(version(library), version(header));
        assert_eq!(serves, answer == "yes", "{line}");
        answers[usize::from(serves)] += 1;
    }
    assert!(answers[0] > 6 && answers[1] > 5, "{answers:?}");
}

#[test]
fn one_version_everywhere() {
    let text = env!("CARGO_PKG_VERSION");
    let version = version(text);
    assert_eq!(value("ABR_VERSION"), u64::from(version));
    assert_eq!(ffi::ABR_VERSION, version);
    // SAFETY: neither call has an argument.
    let (archive, words) = unsafe { (ffi::abr_version(), ffi::abr_table_words()) };
    assert_eq!(archive, version, "of the archive");
    assert_eq!(words as usize, ffi::ABR_TABLE_WORDS, "of the archive");
    assert!(ffi::abr_matches());
    let makefile = include_str!("../../../../Makefile");
    let line = format!("VERSION := {text}");
    assert!(makefile.lines().any(|l| l == line), "{line} in Makefile");
    let delivery = include_str!("../../../../docs/DELIVERY.md");
    let shared = format!("`lib/libabr.so.{text}`");
    assert!(delivery.contains(&shared), "{shared} in DELIVERY.md");
    let (major, _) = text.split_once('.').expect("three numbers");
    let python = include_str!("../../../python/README.md");
    let shared = format!("`libabr.so.{major}`");
    assert!(python.contains(&shared), "{shared} in README.md of Python");
    let changes = include_str!("../../../../docs/CHANGES.md");
    let first = changes.lines().find(|line| line.starts_with("## "));
    let title = format!(" ({text}): ");
    assert!(first.is_some_and(|line| line.contains(&title)), "{title}");
}

#[test]
fn the_house_set_is_that_of_the_header() {
    let house = abr::Params::house(3, 2, 1);
    assert_eq!((house.pcr, house.mcr, house.icr), (3, 2, 1));
    let rest = [
        house.n, house.r, house.d, house.c, house.tbe, house.frtt, house.adtf, house.trm,
    ];
    let names = ["N", "R", "D", "C", "TBE", "FRTT", "ADTF", "TRM"];
    for (number, name) in rest.into_iter().zip(names) {
        let expected = value(&format!("ABR_HOUSE_{name}"));
        assert_eq!(u64::from(number), expected, "{name}");
    }
}

#[test]
fn the_refusals_are_those_of_the_header() {
    let names: Vec<&str> = HEADER
        .lines()
        .filter_map(|line| line.strip_prefix("#define ABR_REFUSED_"))
        .filter_map(|rest| rest.split(' ').next())
        .collect();
    assert_eq!(names.len(), Refusal::ALL.len());
    for (name, refusal) in names.into_iter().zip(Refusal::ALL.iter().copied()) {
        let name = format!("ABR_REFUSED_{name}");
        let (number, comment) = defined(&name);
        assert_eq!(number, u64::from(refusal.number()), "{name}");
        assert_eq!(comment, refusal.text(), "the comment at {name}");
        let case = format!("case {name}: return \"{}\";", refusal.text());
        assert!(HEADER.contains(&case), "{case}");
        assert_eq!(Refusal::try_from(refusal.number()), Ok(refusal));
    }
    assert_eq!(defined("ABR_OK"), (0, "accepted"));
    assert_eq!(Refusal::try_from(0), Err(0));
    assert_eq!(Refusal::try_from(3), Err(3)); // withdrawn by document 02's L6
    let next = Refusal::ALL.len() as u32 + 2; // 3 is not one
    assert_eq!(Refusal::try_from(next), Err(next));
}

#[test]
fn the_rules_of_a_trace_are_those_of_the_header() {
    for (name, rule) in [
        ("FIRST", Rule::First),
        ("GAP", Rule::Gap),
        ("FORWARD", Rule::Forward),
    ] {
        let (number, comment) = defined(&format!("ABR_RULE_{name}"));
        assert_eq!((number, comment), (rule.number().into(), rule.text()));
        assert_eq!(rule.to_string(), comment);
    }
    assert_eq!(value("ABR_RULE_NONE"), 0);
}
