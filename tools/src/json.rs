//! A verdict as a JSON object in a line of its own, for other programs.

use std::fmt::Write;

use abr::{Refusal, Verdict};

use crate::excerpt::Excerpt;
use crate::fault::{Fault, Field, Unit};

/// A value of a field.
enum Value<'a> {
    Null,
    Number(u64),
    Text(&'a str),
}

impl From<Option<u64>> for Value<'_> {
    fn from(number: Option<u64>) -> Self {
        number.map_or(Value::Null, Value::Number)
    }
}

/// What the fields say of a trace beside its file, the status that it has and the sentence;
/// nothing of one that could not be read.
#[derive(Default)]
struct Found {
    rule: Option<u64>,
    refusal: Option<u64>,
    cell: Option<u64>,
    field: Option<&'static str>,
    octet: Option<u64>,
    number: Option<u64>,
    n: Option<u64>,
    trm: Option<u64>,
    cells: Option<u64>,
    time: Option<u64>,
}

/// The object of a trace that was judged.
pub fn judged(
    name: &str,
    sentence: &str,
    outcome: Result<Verdict, Refusal>,
    excerpt: &Excerpt,
    unit: Unit,
) -> String {
    let mut found = Found {
        n: excerpt.head.map(|head| head.n),
        trm: excerpt.head.map(|head| head.trm),
        cells: Some(excerpt.last.map_or(0, |last| last.number)),
        time: excerpt.last.map(|last| last.time),
        ..Found::default()
    };
    let (verdict, status) = match outcome {
        Ok(Verdict::Passes) => ("passes", 0),
        Ok(Verdict::Breaks { cell, rule }) => {
            found.rule = Some(rule.number().into());
            found.cell = Some(cell);
            ("breaks", 1)
        }
        Err(refusal) => {
            found.refusal = Some(refusal.number().into());
            if let Some(fault) = excerpt.fault.filter(|fault| fault.refusal() == refusal) {
                found.place(&fault, unit);
            }
            ("refused", 1)
        }
    };
    object(name, status, verdict, &found, sentence)
}

/// The object of a file that could not be read as a trace.
pub fn unread(name: &str, why: &str) -> String {
    object(name, 2, "unread", &Found::default(), why)
}

impl Found {
    /// Where a refusal is seen. The octets of a text are not those of its trace.
    fn place(&mut self, fault: &Fault, unit: Unit) {
        self.octet = (unit == Unit::Octets).then_some(fault.octet as u64);
        self.number = Some(fault.number);
        (self.field, self.cell) = match fault.field {
            Field::N => (Some("n"), None),
            Field::Trm => (Some("trm"), None),
            Field::Time(cell) => (Some("time"), Some(cell)),
            Field::Kind(cell) => (Some("kind"), Some(cell)),
            Field::Rate(cell) => (Some("rate"), Some(cell)),
        };
    }
}

/// An object. Each has every field, so that who reads it need not ask which there are.
fn object(name: &str, status: u64, verdict: &str, found: &Found, sentence: &str) -> String {
    let fields = [
        ("file", Value::Text(name)),
        ("status", Value::Number(status)),
        ("verdict", Value::Text(verdict)),
        ("rule", found.rule.into()),
        ("refusal", found.refusal.into()),
        ("cell", found.cell.into()),
        ("field", found.field.map_or(Value::Null, Value::Text)),
        ("octet", found.octet.into()),
        ("number", found.number.into()),
        ("n", found.n.into()),
        ("trm", found.trm.into()),
        ("cells", found.cells.into()),
        ("time", found.time.into()),
        ("sentence", Value::Text(sentence)),
    ];
    let fields = fields.map(|(key, value)| format!("\"{key}\":{}", written(&value)));
    format!("{{{}}}\n", fields.join(","))
}

fn written(value: &Value) -> String {
    match value {
        Value::Null => "null".to_owned(),
        Value::Number(number) => number.to_string(),
        Value::Text(text) => quoted(text),
    }
}

/// A text in quotes. Escaped is also what JSON does not ask for and some readers end a line at.
fn quoted(text: &str) -> String {
    let mut out = String::from("\"");
    for letter in text.chars() {
        match letter {
            '"' | '\\' => out.extend(['\\', letter]),
            '\u{2028}' | '\u{2029}' => escape(&mut out, letter),
            letter if letter.is_control() => escape(&mut out, letter),
            letter => out.push(letter),
        }
    }
    out.push('"');
    out
}

/// A letter by its number, which has four digits of base 16 at most.
fn escape(out: &mut String, letter: char) {
    write!(out, "\\u{:04x}", u32::from(letter)).expect("a string accepts all");
}

#[cfg(test)]
mod tests {
    use super::*;

    #[test]
    fn letters_of_every_sort() {
        assert_eq!(quoted("a/b ü€😀"), "\"a/b ü€😀\"");
        assert_eq!(quoted("\"\\"), "\"\\\"\\\\\"");
        assert_eq!(
            quoted("\0\n\r\t\u{1f}"),
            "\"\\u0000\\u000a\\u000d\\u0009\\u001f\""
        );
        assert_eq!(quoted("\u{7f}\u{85}\u{2028}"), "\"\\u007f\\u0085\\u2028\"");
    }
}
