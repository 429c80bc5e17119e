//! Every function of the header is declared with its types, and called.

use std::path::Path;

/// A function with its arguments and its answer, each a name and a type as Rust writes it.
#[derive(Debug, PartialEq, Eq, PartialOrd, Ord)]
struct Function {
    name: String,
    answer: String,
    arguments: Vec<(String, String)>,
}

/// What stands outside all braces, with a semicolon for each block.
fn outside(code: &str) -> String {
    let mut depth = 0_usize;
    let mut out = String::new();
    for letter in code.replace("extern \"C\" {", "").chars() {
        match letter {
            '{' => depth += 1,
            '}' => {
                depth = depth.saturating_sub(1);
                out.push(';');
            }
            letter if depth == 0 => out.push(letter),
            _ => {}
        }
    }
    out
}

/// The functions that the header declares and does not define.
fn of_header() -> Vec<Function> {
    let code = outside(&super::declarations());
    let mut functions: Vec<Function> = code.split(';').filter_map(prototype).collect();
    functions.sort();
    functions
}

/// A prototype; none if it is another declaration.
fn prototype(declaration: &str) -> Option<Function> {
    let declaration = declaration.split_whitespace().collect::<Vec<_>>().join(" ");
    let declaration = declaration.trim_start_matches("ABR_MUST_USE ");
    if ["static ", "ABR_LAYOUT("]
        .iter()
        .any(|start| declaration.starts_with(start))
    {
        return None;
    }
    let (before, behind) = declaration.split_once('(')?;
    let (answer, name) = typed(before);
    let arguments = behind.trim_end_matches(')').split(", ");
    let arguments = arguments
        .filter(|argument| *argument != "void")
        .map(|argument| {
            let (kind, name) = typed(argument);
            (name, kind)
        });
    Some(Function {
        name,
        answer,
        arguments: arguments.collect(),
    })
}

/// The type and the name of what C declares.
fn typed(declared: &str) -> (String, String) {
    let start = declared.rfind([' ', '*']).expect("a type and a name") + 1;
    let (kind, name) = declared.split_at(start);
    (in_rust(kind.trim()), name.to_owned())
}

/// A type of C as Rust writes it.
fn in_rust(kind: &str) -> String {
    match kind.strip_suffix('*').map(str::trim) {
        Some(to) => match to.strip_prefix("const ") {
            Some(to) => format!("*const {}", in_rust(to)),
            None => format!("*mut {}", in_rust(to)),
        },
        None => match kind {
            "uint8_t" => "u8",
            "uint32_t" => "u32",
            "uint64_t" => "u64",
            "size_t" => "usize",
            "double" => "f64",
            other => other,
        }
        .to_owned(),
    }
}

/// The functions that the binding declares.
fn of_binding() -> Vec<Function> {
    let code = include_str!("../../src/ffi.rs");
    let (_, foreign) = code.split_once("extern \"C\" {").expect("a block");
    let (foreign, _) = foreign.split_once('}').expect("its end");
    let mut functions: Vec<Function> = foreign.split(';').filter_map(declared).collect();
    functions.sort();
    functions
}

/// A function that the binding declares; none if nothing stands there.
fn declared(text: &str) -> Option<Function> {
    let (name, behind) = text.trim().strip_prefix("pub fn ")?.split_once('(')?;
    let (arguments, answer) = behind.split_once(')')?;
    let pair = |argument: &str| {
        let (name, kind) = argument.trim().split_once(": ")?;
        Some((name.to_owned(), kind.to_owned()))
    };
    Some(Function {
        name: name.to_owned(),
        answer: answer.trim_start_matches(" -> ").to_owned(),
        arguments: arguments.split(',').filter_map(pair).collect(),
    })
}

#[test]
fn every_function_of_the_header_is_declared_with_its_types_and_no_other() {
    let header = of_header();
    assert!(header.iter().any(|function| function.name == "abr_open"));
    assert_eq!(header, of_binding());
}

/// Beside the declaration there is a call of each.
#[test]
fn every_function_is_called_by_the_binding() {
    let source = Path::new(env!("CARGO_MANIFEST_DIR")).join("src");
    let files = std::fs::read_dir(source).expect("a folder");
    let code: String = files
        .map(|file| std::fs::read_to_string(file.expect("a file").path()).expect("a text"))
        .collect();
    let lines = || code.lines().filter(|line| !line.trim().starts_with("//"));
    for function in of_header() {
        let call = format!("{}(", function.name);
        let places = lines().filter(|line| line.contains(&call)).count();
        assert!(places > 1, "{} is not called", function.name);
    }
}
