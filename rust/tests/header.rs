//! The declarations in Rust are those of the C header.

use std::collections::BTreeSet;

const HEADER: &str = include_str!("../../include/waslidhaj.h");
const RAW: &str = concat!(
    include_str!("../src/raw.rs"),
    include_str!("../src/raw/reader.rs")
);
const CALLS: &str = include_str!("../src/calls.rs");

/// A lent text in C, which is a slice here.
const TEXT: &str = "waslidhaj_text";

/// The structs of the header, and what they are called here.
const STRUCTS: &[(&str, &str)] = &[
    ("waslidhaj_refusal", "Refusal"),
    ("waslidhaj_written", "Written"),
    ("waslidhaj_verdict", "Verdict"),
    ("waslidhaj_given", "Given"),
    ("waslidhaj_state", "State"),
    ("waslidhaj_called", "Called"),
    ("waslidhaj_seen", "Seen"),
    ("waslidhaj_row", "Row"),
    ("waslidhaj_list", "List"),
    ("waslidhaj_finding_numbers", "FindingNumbers"),
    ("waslidhaj_entry", "Entry"),
    ("waslidhaj_list_changed", "ListChanged"),
    ("waslidhaj_found", "Found"),
    ("waslidhaj_lists", "Lists<'a>"),
    ("waslidhaj_settings", "Settings"),
    ("waslidhaj_record_read", "RecordRead"),
    ("waslidhaj_reporter", "Reporter<'a>"),
    ("waslidhaj_gathered", "Gathered"),
    ("waslidhaj_field_read", "FieldRead"),
    ("waslidhaj_check", "Check"),
    ("waslidhaj_check_given", "CheckGiven"),
    ("waslidhaj_check_called", "CheckCalled"),
    ("waslidhaj_reader_state", "ReaderState"),
    ("waslidhaj_reader", "Reader"),
    ("waslidhaj_told", "Told"),
    ("waslidhaj_fed", "Fed"),
    ("waslidhaj_ended", "Ended"),
    ("waslidhaj_received", "Received<'a>"),
    ("waslidhaj_received_identifier", "ReceivedIdentifier<'a>"),
];

/// The name of a type in Rust.
fn type_here(in_c: &str) -> &str {
    match in_c {
        "uint8_t" => "u8",
        "uint16_t" => "u16",
        "uint32_t" => "u32",
        "uint64_t" => "u64",
        "size_t" => "usize",
        TEXT => "&'a [u8]",
        other => {
            let known = STRUCTS.iter().find(|(own, _)| *own == other);
            known.unwrap_or_else(|| panic!("the type {other}")).1
        }
    }
}

/// The fields of a struct in C, as Rust has them.
fn fields_in_c(name: &str) -> Vec<String> {
    let (before, _) = HEADER.split_once(&format!("}} {name};")).expect(name);
    let (_, body) = before.rsplit_once("typedef struct {").expect("a struct");
    let mut fields = Vec::new();
    for line in body
        .lines()
        .map(str::trim)
        .filter(|line| line.ends_with(';'))
    {
        let (kind, names) = line.trim_end_matches(';').split_once(' ').expect("a field");
        for field in names.split(", ") {
            fields.push(match field.split_once('[') {
                Some((field, size)) => {
                    let size = size.trim_end_matches(']');
                    format!("{field}: [{}; {size}]", type_here(kind))
                }
                None => format!("{field}: {}", type_here(kind)),
            });
        }
    }
    fields
}

/// The fields of a struct here.
fn fields_here(name: &str) -> Vec<String> {
    let begin = format!("pub struct {name} {{\n");
    let own = RAW.split_once(&begin).or_else(|| CALLS.split_once(&begin));
    let (_, after) = own.expect(name);
    let (body, _) = after.split_once("\n}\n").expect("its end");
    let lines = body
        .lines()
        .filter_map(|line| line.trim().strip_prefix("pub "));
    lines
        .map(|line| line.trim_end_matches(',').to_string())
        .collect()
}

/// The flags of a record that was read are a `bool` here.
#[test]
fn the_structs_have_the_same_fields() {
    for (in_c, here) in STRUCTS {
        let fields = fields_here(here).into_iter();
        let fields: Vec<String> = fields
            .map(|field| field.replace(": bool", ": u8"))
            .collect();
        assert_eq!(fields, fields_in_c(in_c), "{here}");
    }
    assert!(HEADER.contains(&format!("}} {TEXT};")));
    let structs = HEADER.matches("typedef struct {").count();
    // Beside these a lent text, and one of a reader: what a call gives with its numbers.
    let of_readers = ["waslidhaj_read_given"];
    for name in of_readers {
        assert!(HEADER.contains(&format!("}} {name};")));
    }
    assert_eq!(structs - of_readers.len(), STRUCTS.len() + 1);
}

/// The names of functions, each before one of these.
fn names(text: &str, before: &str) -> BTreeSet<String> {
    let words = text.split(before).skip(1);
    let names = words.filter_map(|rest| rest.split_once('(').map(|(name, _)| name.to_string()));
    names
        .filter(|name| name.starts_with("waslidhaj_"))
        .collect()
}

#[test]
fn the_functions_are_the_same() {
    let here = names(RAW, "pub(crate) fn ");
    let lines = HEADER.lines();
    let prototypes = lines.filter(|line| line.contains('(') && !line.starts_with([' ', '/', '#']));
    let prototypes = prototypes.filter(|line| !line.starts_with("static "));
    let in_c: BTreeSet<String> = prototypes.flat_map(|line| names(line, " ")).collect();
    assert_eq!(here, in_c);
    let of_readers = ["new_reader", "read_apart", "end"].map(|name| format!("waslidhaj_{name}"));
    let of_readers = here.intersection(&of_readers.into()).count();
    assert_eq!(here.len() - of_readers, 25);
    assert_eq!(of_readers, 3);
}

/// A number of the header by its name.
fn number_in_c(name: &str) -> usize {
    let (_, after) = HEADER
        .split_once(&format!("WASLIDHAJ_{name} = "))
        .expect(name);
    let digits = after.split(|octet: char| !octet.is_ascii_digit()).next();
    digits.expect(name).parse().expect(name)
}

#[test]
fn the_sizes_are_the_same() {
    assert_eq!(number_in_c("VERSION"), waslidhaj::VERSION);
    assert_eq!(number_in_c("NAME_OCTETS"), waslidhaj::NAME_OCTETS);
    let check_name = waslidhaj::CHECK_NAME_OCTETS;
    assert_eq!(number_in_c("CHECK_NAME_OCTETS"), check_name);
    assert_eq!(number_in_c("CHECK_NAMES"), waslidhaj::CHECK_NAMES);
    assert_eq!(number_in_c("REPORT_OCTETS"), waslidhaj::Report::OCTETS);
    assert_eq!(number_in_c("SUBJECT_OCTETS"), waslidhaj::Subject::OCTETS);
    assert_eq!(number_in_c("ROW_OCTETS"), waslidhaj::ROW_OCTETS);
    assert_eq!(number_in_c("STACK_OCTETS"), waslidhaj::STACK_OCTETS);
    assert_eq!(number_in_c("RUN_STACK_OCTETS"), waslidhaj::RUN_STACK_OCTETS);
}
