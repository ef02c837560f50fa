//! Nothing is said where the code and the second evaluator differ.

use evaluator::policy::Settings;
use records::agreement::{self, Reading, Writing};
use records::code::{numbers, Code, Proved, RecordNumbers, RecordRead, Written};
use records::{day, reading, writing};

const DIFFER: &str = "the proved code and the second evaluator differ, so nothing is said: ";

/// A code that says that it wrote one octet more, and reads no record.
struct Other;

impl Code for Other {
    fn write(&self, numbers: RecordNumbers, rua: &[u8], out: &mut [u8]) -> Written {
        let mut written = Proved.write(numbers, rua, out);
        written.length += 1;
        written
    }

    fn read(&self, _: &[u8]) -> RecordRead {
        RecordRead::default()
    }
}

#[test]
fn writers_that_differ() {
    let said = writing::record(&Other, &[b"p=none".to_vec()]).expect_err("a difference");
    let line = format!("{DIFFER}the answers differ");
    assert_eq!(said.lines().next(), Some(line.as_str()));
    assert!(said.contains("17 octets written\n-- the reference\n16 octets written"));
    let refused = writing::record(&Other, &[]).expect_err("a difference");
    let line = format!("{DIFFER}a length where it is refused");
    assert_eq!(refused.lines().next(), Some(line.as_str()));
}

#[test]
fn readers_that_differ() {
    let said = reading::lines(&Other, b"v=DMARC1; p=none").expect_err("a difference");
    assert!(said.starts_with(&format!("{DIFFER}the readings differ\n")));
    let day = day::read(&Other, "x.txt", b"\nrecord \"v=DMARC1; p=none\"\n");
    let said = day.expect_err("a difference");
    assert!(said.starts_with(&format!("x.txt: line 2: {DIFFER}the readings differ\n")));
    // They agree on this one.
    let none = reading::lines(&Other, b"junk").expect_err("no record");
    assert!(none.starts_with("no policy record: "));
}

#[test]
fn what_both_write_and_read() {
    let writing = Writing {
        numbers: RecordNumbers {
            sp: 3,
            np: 3,
            ..RecordNumbers::default()
        },
        rua: b"a:b",
        lent: 25,
    };
    let record = agreement::write(&Proved, &writing).expect("agreement");
    assert_eq!(record, Ok(b"v=DMARC1; p=none; rua=a:b".to_vec()));
    let read = agreement::read(&Proved, b"v=DMARC1; p=none; rua=a:b").expect("agreement");
    let settings = read.map(|read| read.settings).unwrap_or_default();
    assert_eq!(numbers(&settings), writing.numbers);
    assert_eq!(read.map(|read| read.rua), Some(b"a:b".as_slice()));
    let absent = Reading {
        settings: Settings::default(),
        rua: b"",
    };
    assert_eq!(agreement::read(&Proved, b"v=DMARC1"), Ok(Some(absent)));
    assert_eq!(agreement::read(&Proved, b"junk"), Ok(None));
}
