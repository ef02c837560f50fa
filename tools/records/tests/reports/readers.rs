//! Reports read by dmarc-cat, a reader of others' reports that Debian has: the rows
//! and counts are those that were written. Where it is not on the machine the test
//! says that it is skipped.

use std::fs;
use std::net::IpAddr;
use std::process::Command;

use crate::days::{example, generated_day};
use crate::schema::{folder, has};
use records::report::written;
use sheets::day::Day;

/// Source, count and author domain.
type ReadRow = (IpAddr, u32, String);

fn sorted(mut rows: Vec<ReadRow>) -> Vec<ReadRow> {
    rows.sort();
    rows
}

/// What dmarc-cat prints of a report under its file name. It asks the DNS about no
/// source, and has one job alone: with more it mixes up the sources of rows.
fn printed(day: &Day) -> String {
    let written = written(day).expect("a whole day").expect("a report");
    let name = String::from_utf8(written.name).expect("plain text");
    let folder = folder("dmarc-cat");
    fs::write(folder.join(&name), written.report).expect("a file");
    let ran = Command::new("dmarc-cat")
        .args(["-N", "-j", "1", &name])
        .current_dir(folder)
        .output();
    let ran = ran.expect("dmarc-cat");
    assert!(ran.status.success(), "{ran:?}");
    String::from_utf8(ran.stdout).expect("plain text")
}

/// The rows in the table below the head of its columns.
fn read_rows(printed: &str) -> Vec<ReadRow> {
    let lines = printed.lines().skip_while(|line| !line.starts_with("IP "));
    let rows = lines.skip(1).filter(|line| !line.is_empty());
    let row = |line: &str| {
        let words: Vec<&str> = line.split_whitespace().collect();
        let source = words[0].parse().expect("an address");
        (
            source,
            words[1].parse().expect("a count"),
            words[2].to_string(),
        )
    };
    sorted(rows.map(row).collect())
}

fn described_rows(day: &Day) -> Vec<ReadRow> {
    let rows = day.rows.iter().map(|row| {
        let author = String::from_utf8_lossy(&row.author).to_lowercase();
        (row.source, row.count, author)
    });
    sorted(rows.collect())
}

/// A day with the example's names and times: a file's name has 255 octets, and
/// dmarc-cat reads times of 63 bits.
fn readable(mut day: Day) -> Day {
    let own = example();
    (day.receiver, day.domain) = (own.receiver, own.domain);
    (day.begin, day.end) = (own.begin, own.end);
    day
}

#[test]
fn a_reader_of_others() {
    if !has("dmarc-cat", "a reader of others' reports") {
        return;
    }
    let text = printed(&example());
    for line in [
        "Reporting by: Gate & Sons — dmarc@gate.example",
        "From 2023-11-14 00:00:00 +0000 UTC to 2023-11-14 23:59:59 +0000 UTC",
        "Domain: example.com",
        "Policy: p=reject; dkim=r; spf=r",
        "Reports(4):",
    ] {
        assert!(text.lines().any(|own| own.trim_end() == line), "{text}");
    }
    assert_eq!(read_rows(&text), described_rows(&example()));
    let mut rows = 0;
    for index in 0..60 {
        let day = readable(generated_day(index));
        let read = read_rows(&printed(&day));
        assert_eq!(read, described_rows(&day), "{index}");
        rows += read.len();
    }
    assert!(rows > 200, "{rows} rows");
}
