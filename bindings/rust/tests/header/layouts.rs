//! Every struct of the header is in the binding, with its fields where C has them.

use std::mem::{align_of, offset_of, size_of};

use abr::ffi::*;

/// A struct: its size and its alignment, and where each field begins.
#[derive(Debug, PartialEq, Eq)]
struct Layout {
    name: String,
    size: usize,
    align: usize,
    fields: Vec<(String, usize)>,
}

/// Layouts of the binding.
macro_rules! layouts {
    ($($name:ident: $($field:ident)*;)*) => {
        vec![$(Layout {
            name: stringify!($name).to_owned(),
            size: size_of::<$name>(),
            align: align_of::<$name>(),
            fields: vec![$((stringify!($field).to_owned(), offset_of!($name, $field)),)*],
        },)*]
    };
}

/// The structs of the binding, in the order of the header.
fn of_binding() -> Vec<Layout> {
    layouts! {
        abr_table: words;
        abr_params: pcr mcr icr n r d c tbe frtt adtf trm;
        abr_rm: vpi vci dir bn ci ni ra er ccr mcr ql sn;
        abr_opened: refusal comparisons leaf;
        abr_answer: refusal comparisons;
        abr_received: refusal comparisons kind vpi vci leaf acr;
        abr_closed: refusal comparisons cells;
        abr_sent: refusal comparisons kind vpi vci leaf acr acr_before made reserved;
        abr_allowed: refusal reserved acr change;
        abr_connection: refusal kind vpi vci leaf waiting params crm icr_used acr change opened
            last_sent last_forward ready last_made last_out_of_rate k unanswered backward_sent efci turned
            made_level served reserved;
        abr_member: refusal vpi vci waiting;
        abr_totals: connections connections_max members level last;
        abr_cell: refusal kind efci rm;
        abr_coded: refusal code;
        abr_rated: refusal reserved rate;
        abr_contract: pcr mcr icr;
        abr_imported: refusal code remainder;
        abr_share: refusal limited rate;
        abr_verdict: refusal rule cell;
    }
}

/// The structs of the header, laid out by the rules of C.
fn of_header() -> Vec<Layout> {
    let code = super::declarations();
    let mut layouts = Vec::new();
    for part in code.split("typedef struct {").skip(1) {
        let (body, behind) = part.split_once('}').expect("the end of a struct");
        let (name, _) = behind.split_once(';').expect("the name of a struct");
        let layout = laid_out(name.trim(), body, &layouts);
        layouts.push(layout);
    }
    layouts
}

/// The layout of a struct, whose fields may be structs before it.
fn laid_out(name: &str, body: &str, known: &[Layout]) -> Layout {
    let mut layout = Layout {
        name: name.to_owned(),
        size: 0,
        align: 1,
        fields: Vec::new(),
    };
    for field in body
        .split(';')
        .map(str::trim)
        .filter(|field| !field.is_empty())
    {
        let (kind, field) = field.split_once(' ').expect("a type and a name");
        let (field, count) = match field.split_once('[') {
            Some((field, "ABR_TABLE_WORDS]")) => (field, ABR_TABLE_WORDS),
            Some((_, other)) => panic!("[{other} is not a count"),
            None => (field, 1),
        };
        let (size, align) = size_and_align(kind, known);
        let offset = layout.size.next_multiple_of(align);
        layout.fields.push((field.to_owned(), offset));
        layout.align = layout.align.max(align);
        layout.size = offset + size * count;
    }
    layout.size = layout.size.next_multiple_of(layout.align);
    layout
}

/// Size and alignment of a type of C.
fn size_and_align(kind: &str, known: &[Layout]) -> (usize, usize) {
    match kind {
        "uint32_t" => (4, 4),
        "uint64_t" | "int64_t" | "double" => (8, 8),
        name => {
            let layout = known.iter().find(|layout| layout.name == name);
            let layout = layout.unwrap_or_else(|| panic!("no type {name}"));
            (layout.size, layout.align)
        }
    }
}

#[test]
fn the_layouts_are_those_of_the_header() {
    assert_eq!(of_header(), of_binding());
}

/// A number with a comma before its last three digits.
fn with_comma(number: usize) -> String {
    match number {
        0..1_000 => number.to_string(),
        _ => format!("{},{:03}", number / 1_000, number % 1_000),
    }
}

/// The manual says how many comparisons and octets an edition has.
#[test]
fn the_size_of_a_table_is_said() {
    let connections = with_comma(abr::CONNECTIONS_MAX);
    let octets = with_comma(size_of::<abr_table>());
    let row = format!("\n| {connections} | {} | {octets} |", abr::COMPARISONS_MAX);
    let page = include_str!("../../../../docs/MANUAL.md");
    assert!(page.contains(&row), "{row} in MANUAL.md");
}
