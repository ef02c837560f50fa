//! The files of examples/: the marked sheets as descriptions, and a day.

use std::collections::BTreeSet;
use std::path::PathBuf;

use crate::octets::run;
use crate::stored::root;
use sheets::description::make;
use sheets::examples::MARKED;

fn folder() -> PathBuf {
    root().join("examples")
}

/// The file of a row: its number in two digits, then its variant if it has one.
fn file_of(row: &str) -> String {
    let (number, variant) = row.split_once(',').unwrap_or((row, ""));
    format!("{number:0>2}{}.txt", variant.replace(' ', "-"))
}

#[test]
fn exactly_the_files_of_the_marked_sheets_and_a_day() {
    let entries = std::fs::read_dir(folder()).expect("the folder");
    let entries = entries.map(|entry| entry.expect("an entry"));
    let files = entries
        .filter(|entry| entry.path().is_file())
        .map(|entry| entry.file_name());
    let found: BTreeSet<String> = files
        .map(|name| name.to_string_lossy().into_owned())
        .collect();
    let mut wanted: BTreeSet<String> = MARKED.iter().map(|row| file_of(row.name)).collect();
    assert_eq!(wanted.len(), 15);
    wanted.insert("day.txt".to_string());
    assert_eq!(found, wanted);
}

#[test]
fn each_file_is_its_marked_sheet_and_says_what_comes_out() {
    for row in MARKED {
        let file = file_of(row.name);
        let text = std::fs::read_to_string(folder().join(&file)).expect("a file");
        let sheet = make(text.as_bytes()).expect("a sheet");
        assert_eq!(Ok(&sheet), row.sheet().as_ref(), "{file}");
        assert_eq!(run(&sheet), row.output(), "{file}");
        let (number, _) = row.name.split_once(',').unwrap_or((row.name, ""));
        let (head, rest) = text.split_once('\n').expect("a first line");
        assert!(head.starts_with(&format!("# Marked sheet {number}: ")));
        assert_eq!(rest, said(&row.output()) + &row.description(), "{file}");
    }
}

/// The comment line of an output: its lines after the names, in a row.
fn said(output: &str) -> String {
    let lines: Vec<&str> = output.lines().filter(|l| !l.starts_with("ask ")).collect();
    let [result, policy, disposition, asked] = lines.as_slice() else {
        panic!("no verdict: {output}");
    };
    let (word, count) = asked.split_once(' ').expect("a count");
    format!("# Out: {result}, {policy}, {disposition}, {count} {word}.\n")
}
