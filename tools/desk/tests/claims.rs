//! Claims do not vanish unseen: all that is claimed is on a list, and
//! `docs/CLAIMS.md` is true of the crates. It names every claim of `Delivered`, and
//! every claim and every must-fail edit that it names is there.

use std::collections::BTreeSet;
use std::fs;
use std::path::{Path, PathBuf};

use desk::root;

/// The files of a folder, sorted, with this ending.
fn files(folder: &Path, ending: &str) -> Vec<PathBuf> {
    let Ok(entries) = fs::read_dir(folder) else {
        return Vec::new();
    };
    let mut files: Vec<PathBuf> = entries
        .map(|entry| entry.expect("an entry").path())
        .filter(|path| path.to_string_lossy().ends_with(ending))
        .collect();
    files.sort();
    files
}

fn read(path: &Path) -> String {
    fs::read_to_string(path).unwrap_or_else(|error| panic!("{}: {error}", path.display()))
}

fn stem(path: &Path) -> String {
    let stem = path.file_stem().expect("a name");
    stem.to_string_lossy().into_owned()
}

/// The crates, and of each the names of its edits.
fn edits() -> Vec<(String, BTreeSet<String>)> {
    let crates = files(&root().join("crates"), "");
    let edits = |path: &PathBuf| {
        let names = files(&path.join("must-fail"), ".edit");
        (stem(path), names.iter().map(|name| stem(name)).collect())
    };
    crates.iter().map(edits).collect()
}

/// What stands between backticks.
fn quoted(text: &str) -> Vec<&str> {
    text.split('`').skip(1).step_by(2).collect()
}

/// The fields of the records in a file, each behind its record's name.
fn fields(text: &str) -> Vec<String> {
    let mut record = "";
    let mut fields = Vec::new();
    for line in text.lines() {
        if let Some(rest) = line.strip_prefix("pub record ") {
            record = rest.split(' ').next().expect("a name");
        } else if let Some((name, _)) = line
            .strip_prefix("  pub ")
            .and_then(|field| field.split_once(" : "))
        {
            fields.push(format!("{record}.{name}"));
        }
    }
    fields
}

/// A table in a file and how many rows it has: each has one of these words, once.
fn rows(text: &str, table: &str, words: &[&str]) -> String {
    let (_, table_text) = text
        .split_once(&format!("\n{table} =\n"))
        .unwrap_or_else(|| panic!("no table {table}"));
    let (rows, _) = table_text.split_once("∷ []\n\n").expect("its end");
    let of_a_row = |part: &&str| words.contains(part);
    let count = rows.split_whitespace().filter(of_a_row).count();
    format!("{table}: {count} rows")
}

/// Files with computed examples that are records, and those that are tables, with
/// the words of which each row has one.
const EXAMPLES: [&str; 7] = [
    "domain/specs/FinalDot.antt",
    "policy/specs/Repeated.antt",
    "reporting/specs/Examples.antt",
    "book/specs/AddingCalls.antt",
    "verdict/specs/StoredExamples.antt",
    "field/specs/Examples.antt",
    "report/specs/Examples.antt",
];
const TABLES: [(&str, &str, &[&str]); 17] = [
    ("sheet/specs/Marked.antt", "table", &["row"]),
    ("sheet/specs/Dotted.antt", "dotted", &["row"]),
    (
        "publishing/specs/RecordExamples.antt",
        "record_table",
        &["writes", "not_written"],
    ),
    (
        "book/specs/FieldExamples.antt",
        "field_table",
        &["lists", "has_no_field"],
    ),
    // The lists of calls that make up the table of checks, then that table.
    (CHECKS, "nothing_begun", &["⇒"]),
    (CHECKS, "equal_domains", &["⇒"]),
    (CHECKS, "equal_organizations", &["⇒"]),
    (CHECKS, "policy_domain_first", &["⇒"]),
    (CHECKS, "error_of_policy", &["⇒"]),
    (CHECKS, "error_of_host", &["⇒"]),
    (CHECKS, "walked", &["⇒"]),
    (CHECKS, "outcome c v", &["⇒"]),
    (CHECKS, "unreadable", &["⇒"]),
    (CHECKS, "is_replaced", &["⇒"]),
    (
        CHECKS,
        "check_table",
        &[
            "nothing_begun",
            "equal_domains",
            "equal_organizations",
            "policy_domain_first",
            "error_of_policy",
            "error_of_host",
            "(walked",
        ],
    ),
    (
        CHECKS,
        "answer_table",
        &["Agreement.PlainNo)", "Agreement.Confirmed)", "replaced"],
    ),
    (CHECKS, "host_table", &["None)", "Some"]),
];
const CHECKS: &str = "address/specs/Marked.antt";

/// The files of claims, by their names.
fn claimed() -> Vec<PathBuf> {
    let folders =
        ["claims/specs", "delivered/specs"].map(|folder| root().join("crates").join(folder));
    let mut claimed: Vec<PathBuf> = folders
        .iter()
        .flat_map(|folder| files(folder, ".antt"))
        .collect();
    claimed.sort_by(|one, other| one.file_name().cmp(&other.file_name()));
    claimed
}

/// Everything that is claimed, by name, and how many rows each table has.
fn delivered() -> Vec<String> {
    let crates = root().join("crates");
    let examples = EXAMPLES.iter().map(|file| crates.join(file));
    let mut names: Vec<String> = claimed()
        .into_iter()
        .chain(examples)
        .flat_map(|file| fields(&read(&file)))
        .collect();
    let table = |(file, table, words): &(&str, &str, &[&str])| {
        rows(&read(&crates.join(file)), table, words)
    };
    names.extend(TABLES.iter().map(table));
    names
}

/// A claim that goes, or comes, is written down here too.
#[test]
fn everything_claimed_is_on_the_list() {
    let list = read(&root().join("tools/desk/tests/claims/delivered.txt"));
    let list: Vec<&str> = list.lines().collect();
    assert_eq!(delivered(), list);
}

#[test]
fn every_claim_is_named() {
    let page = read(&root().join("docs/CLAIMS.md"));
    let names: BTreeSet<&str> = quoted(&page)
        .into_iter()
        .map(|name| name.rsplit('.').next().expect("a last part"))
        .collect();
    for file in claimed() {
        let text = read(&file);
        // Fields that are records of claims themselves are named by these.
        let records: Vec<&str> = text.lines().filter(|line| line.ends_with("Hold")).collect();
        for claim in fields(&text) {
            let name = claim.split('.').nth(1).expect("a field");
            let is_record = records
                .iter()
                .any(|line| line.starts_with(&format!("  pub {name} : ")));
            assert!(
                is_record || names.contains(name),
                "docs/CLAIMS.md does not name {claim}"
            );
        }
    }
}

/// Each claim that the page names, as `SumsHold.total`, is there.
#[test]
fn every_claim_that_is_named_is_there() {
    let page = read(&root().join("docs/CLAIMS.md"));
    let claims: BTreeSet<String> = delivered().into_iter().collect();
    for name in quoted(&page) {
        let Some((record, _)) = name.split_once('.') else {
            continue;
        };
        if record.ends_with("Hold") || record.ends_with("Holds") {
            assert!(claims.contains(name), "no claim {name}");
        }
    }
}

/// A name as edits and crates have it.
fn is_plain(name: &str) -> bool {
    let plain = |c: char| c.is_ascii_lowercase() || c.is_ascii_digit() || c == '_';
    name.chars().all(plain)
}

#[test]
fn every_edit_that_is_named_is_there() {
    let page = read(&root().join("docs/CLAIMS.md"));
    let crates = edits();
    let of = |name: &str| crates.iter().find(|(own, _)| own == name);
    let mut count = 0;
    for row in page.lines().filter(|line| line.starts_with("| ")) {
        // Words, what states them, what guards them; tables of two cells name no edits.
        let [_, _, guards] = row.trim_end_matches(" |").split(" | ").collect::<Vec<_>>()[..] else {
            continue;
        };
        let mut within = None;
        for name in quoted(guards) {
            let (house, edit) = name.split_once('/').unwrap_or(("", name));
            within = if house.is_empty() { within } else { of(house) };
            if !is_plain(edit) {
                continue;
            }
            let there = match within {
                Some((_, names)) => names.contains(edit),
                None => crates.iter().any(|(_, names)| names.contains(edit)),
            };
            assert!(there || of(edit).is_some(), "no edit {name} in:\n{row}");
            count += 1;
        }
    }
    assert!(count > 200, "only {count} edits were found");
}
