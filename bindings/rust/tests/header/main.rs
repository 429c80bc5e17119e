//! The binding compared with the C header: numbers and texts, the layouts of structs, the types
//! of functions, the fields of answers. What the header has is read from it, so that nothing new in it is missed.

mod answers;
mod layouts;
mod numbers;
mod prototypes;

/// The header.
const HEADER: &str = include_str!("../../../../include/abr.h");

/// The header without comments and without lines of the preprocessor.
fn declarations() -> String {
    let mut parts = HEADER.split("/*");
    let mut code = parts.next().unwrap_or_default().to_owned();
    for part in parts {
        let (_, behind) = part.split_once("*/").expect("a comment ends");
        code.push_str(behind);
    }
    let lines = code.lines().filter(|line| !line.starts_with('#'));
    lines.collect::<Vec<_>>().join("\n")
}
