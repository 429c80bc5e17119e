//! Parts of a picture: its frame, lines, axes, lines of text, numbers in words.

use std::fmt::Write;

/// The beginning of a picture with a title, on white; `</svg>` ends it.
pub fn begin((width, height): (f64, f64), (x, y): (f64, f64), title: &str) -> String {
    let mut out = format!(
        "<svg xmlns=\"http://www.w3.org/2000/svg\" viewBox=\"0 0 {width} {height}\" \
         width=\"{width}\" height=\"{height}\" font-family=\"Helvetica, Arial, DejaVu Sans, sans-serif\" \
         font-size=\"14\" fill=\"#333\">\n<rect width=\"100%\" height=\"100%\" fill=\"white\"/>\n"
    );
    let anchor = "start\" font-size=\"17\" font-weight=\"bold";
    text(&mut out, (x, y), anchor, title);
    out
}

/// A line of text with its anchor.
pub fn text(out: &mut String, (x, y): (f64, f64), anchor: &str, words: &str) {
    let words = escaped(words);
    put(
        out,
        format_args!("<text x=\"{x:.1}\" y=\"{y:.1}\" text-anchor=\"{anchor}\">{words}</text>\n"),
    );
}

/// A line of text in bold, in the colour of what it names.
pub fn name(out: &mut String, at: (f64, f64), anchor: &str, colour: &str, words: &str) {
    let anchor = format!("{anchor}\" font-weight=\"bold\" fill=\"{colour}");
    text(out, at, &anchor, words);
}

/// The name of an axis that goes upwards, beside its middle.
pub fn upright(out: &mut String, (x, y): (f64, f64), words: &str) {
    let words = escaped(words);
    put(
        out,
        format_args!(
            "<text transform=\"translate({x} {y}) rotate(-90)\" \
             text-anchor=\"middle\">{words}</text>\n"
        ),
    );
}

/// A line without a filling, if it has a part.
pub fn path(out: &mut String, line: &str, colour: &str, width: f64) {
    if !line.is_empty() {
        let style = format!("fill=\"none\" stroke=\"{colour}\" stroke-width=\"{width}\"");
        put(out, format_args!("<path d=\"{line}\" {style}/>\n"));
    }
}

/// A filled rectangle, from its upper left corner.
pub fn rect(out: &mut String, (x, y): (f64, f64), (width, height): (f64, f64), fill: &str) {
    put(
        out,
        format_args!(
            "<rect x=\"{x:.1}\" y=\"{y:.1}\" width=\"{width:.1}\" height=\"{height:.1}\" \
             fill=\"{fill}\"/>\n"
        ),
    );
}

/// A dashed line, thin.
pub fn dashed(out: &mut String, line: &str, colour: &str) {
    path(
        out,
        line,
        &format!("{colour}\" stroke-dasharray=\"5 3"),
        1.4,
    );
}

/// A line of the grid from left to right, with the value that it stands for.
pub fn grid(out: &mut String, (left, right): (f64, f64), y: f64, words: &str) {
    put(
        out,
        format_args!("<path d=\"M{left} {y:.1}H{right}\" stroke=\"#ccc\"/>\n"),
    );
    text(out, (left - 10.0, y + 5.0), "end", words);
}

/// A mark below an axis, with the value that it stands for.
pub fn tick(out: &mut String, (x, floor): (f64, f64), words: &str) {
    put(
        out,
        format_args!("<path d=\"M{x:.1} {floor}v6\" stroke=\"#333\"/>\n"),
    );
    text(out, (x, floor + 24.0), "middle", words);
}

/// Both axes.
pub fn axes(out: &mut String, (left, right): (f64, f64), (top, floor): (f64, f64)) {
    path(out, &format!("M{left} {top}V{floor}H{right}"), "#333", 1.5);
}

/// Writing to a string cannot fail.
pub fn put(out: &mut String, words: std::fmt::Arguments<'_>) {
    out.write_fmt(words).expect("a string accepts all");
}

/// Words in which no character begins a tag or an entity, and none is refused by XML.
fn escaped(words: &str) -> String {
    let mut out = String::new();
    for letter in words.chars() {
        match letter {
            '&' => out.push_str("&amp;"),
            '<' => out.push_str("&lt;"),
            '>' => out.push_str("&gt;"),
            letter if letter.is_control() => out.push('\u{FFFD}'),
            letter => out.push(letter),
        }
    }
    out
}

/// A number with a comma before every three of its digits.
pub fn thousands(number: u64) -> String {
    let digits = number.to_string();
    let mut out = String::new();
    for (place, digit) in digits.chars().enumerate() {
        if place > 0 && (digits.len() - place).is_multiple_of(3) {
            out.push(',');
        }
        out.push(digit);
    }
    out
}

#[cfg(test)]
mod tests {
    use super::*;

    #[test]
    fn numbers_and_letters() {
        let numbers = [0, 999, 1_000, 999_999, 1_000_000, u64::MAX].map(thousands);
        let most = "18,446,744,073,709,551,615";
        assert_eq!(numbers, ["0", "999", "1,000", "999,999", "1,000,000", most]);
        assert_eq!(escaped("a<b>&\u{1}\""), "a&lt;b&gt;&amp;\u{FFFD}\"");
    }
}
