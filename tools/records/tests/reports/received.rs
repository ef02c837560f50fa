//! Reports read back: the rows are those that were written. What stands around a
//! refusal, and files that are packed.

use std::io::{self, Read};
use std::process::Command;

use crate::days::{day, example, generated_day};
use crate::schema::folder;
use records::day::DayForm;
use records::received::{open, read, read_all, told, Kept};
use records::report::written;
use records::told::REFUSED;
use sheets::day::{table, Day};
use sheets::received::{self, Received};

fn report(day: &Day) -> Vec<u8> {
    let written = written(day).expect("a whole day").expect("a report");
    written.report
}

/// A source of so many octets at a time.
struct Slow<'a>(&'a [u8], usize);

impl Read for Slow<'_> {
    fn read(&mut self, buffer: &mut [u8]) -> io::Result<usize> {
        let count = self.0.len().min(self.1).min(buffer.len());
        let (front, rest) = self.0.split_at(count);
        buffer[..count].copy_from_slice(front);
        self.0 = rest;
        Ok(count)
    }
}

fn read_slowly(text: &[u8], octets: usize) -> Received {
    read("x.xml", Slow(text, octets)).expect("a source that can be read")
}

/// The last of the tables is that of the day.
fn reads_back(day: &Day) {
    let text = report(day);
    let whole = read_slowly(&text, text.len());
    assert_eq!(whole.refused, None);
    assert_eq!(read_slowly(&text, 7), whole);
    let printed = received::table(&[whole]);
    let (_, last) = printed.split_once(" of 1 report\n").expect("all rows");
    assert_eq!(last, table(day));
}

#[test]
fn the_rows_are_those_that_were_written() {
    reads_back(&example());
    (0..200).for_each(|index| reads_back(&generated_day(index)));
}

/// Cut anywhere, it ends early, with the text before that.
#[test]
fn what_stands_before_an_early_end() {
    let text = report(&example());
    for place in 0..text.len() {
        let cut = read_slowly(&text[..place], 700);
        let refused = cut.refused.expect("a refusal");
        let (number, own) = (refused.refusal.number, refused.refusal.place);
        assert_eq!((number, own), (22, place));
        assert!(text[..place].ends_with(&refused.before));
        assert!(refused.before.len() >= place.min(1024));
        assert_eq!(refused.after, b"");
    }
}

/// Any octet that is put in place of another is refused there or further on, and
/// both sides are shown.
#[test]
fn what_stands_around_a_refusal() {
    let text = report(&example());
    for place in 0..text.len() {
        let mut other = text.clone();
        other[place] = 7;
        let refused = read_slowly(&other, 700).refused.expect("a refusal");
        let (number, own) = (refused.refusal.number, refused.refusal.place);
        assert_eq!((number, own), (20, place));
        assert!(other[..place].ends_with(&refused.before));
        assert!(other[place..].starts_with(&refused.after));
        assert_eq!(refused.after.first(), Some(&7));
    }
}

/// What could stand where something else does, each text up to its end.
#[test]
fn what_could_stand_there() {
    let text = String::from_utf8(report(&example())).expect("plain text");
    let next = |from: &str| {
        let place = text.find(from).expect(from) + from.len();
        let cut = read_slowly(&text.as_bytes()[..place], 700);
        let texts = cut.refused.expect("a refusal").next.into_iter();
        let texts = texts.map(|own| String::from_utf8(own).expect("plain text"));
        texts.collect::<Vec<String>>()
    };
    assert_eq!(next(""), ["<?xml version=\"1.0\" encoding=\"UTF-8\"?>"]);
    assert_eq!(next("</p>"), ["<adkim>", "<np>", "<sp>"]);
    assert_eq!(next("</email><"), ["extra_contact_info>", "report_id>"]);
    assert_eq!(next("<adkim>"), ["r", "s"]);
    let words = ["none", "pass", "quarantine", "reject"];
    assert_eq!(next("<disposition>"), words);
    let passed = "pass</disposition><dkim>pass</dkim><spf>";
    assert_eq!(next(passed), ["fail", "pass"]);
    assert_eq!(next("<count>12"), [""; 0]);
    assert_eq!(next("<auth_results>")[..2], ["</auth_results>", "<dkim>"]);
    let behind = read_slowly(format!("{text}\n").as_bytes(), 700);
    assert_eq!(behind.refused.expect("a refusal").next, [b""; 0]);
}

#[test]
fn the_octets_that_are_kept() {
    let text: Vec<u8> = (0..5_000_u32).map(|index| index as u8).collect();
    let mut kept = Kept::new(Slow(&text, 300));
    let (mut all, mut buffer) = (Vec::<u8>::new(), [0; 8192]);
    assert_eq!(kept.around(0), (&b""[..], &b""[..]));
    while all.len() < text.len() {
        let count = kept.read(&mut buffer).expect("a source");
        all.extend(&buffer[..count]);
    }
    assert_eq!(all, text);
    let (before, after) = kept.around(4_900);
    assert!(text[..4_900].ends_with(before) && before.len() >= 1024);
    assert_eq!(after, &text[4_900..]);
    assert_eq!(kept.around(9_999).1, b"");
}

#[test]
fn refusals_are_told() {
    let text = report(&day_of_one());
    let whole = told(DayForm::Plain, &[read_slowly(&text, 9)]);
    assert_eq!((whole.status, whole.notes.len()), (0, 0));
    for form in [DayForm::Plain, DayForm::Csv, DayForm::Json] {
        let cut = told(form, &[read_slowly(&text[..9], 9), read_slowly(&text, 9)]);
        assert_eq!(cut.status, REFUSED);
        let first = "x.xml: octet 9: refused 22: the report ends early";
        assert_eq!(cut.notes.first().map(String::as_str), Some(first));
    }
}

fn day_of_one() -> Day {
    day(
        "domain b\nrecord \"v=DMARC1; p=none\"\norganization c\nemail d\nreceiver e\nid f\n\
         begin 1\nend 2\nrow ::1 1 none author b\n",
    )
}

#[test]
fn a_source_that_fails() {
    struct Broken;
    impl Read for Broken {
        fn read(&mut self, _: &mut [u8]) -> io::Result<usize> {
            Err(io::Error::other("broken"))
        }
    }
    assert_eq!(read("x.xml", Broken), Err("x.xml: broken".to_string()));
    let missing = read_all(&[b"no such file".to_vec()]);
    let said = missing.expect_err("an error");
    assert!(said.starts_with("no such file: "), "{said}");
}

/// A packed report, and one that is not read to its end.
#[test]
fn packed_reports() {
    let folder = folder("received");
    let file = folder.join("a.xml");
    let text = report(&example());
    let packed = |octets: &[u8]| {
        std::fs::write(&file, octets).expect("a file");
        let ran = Command::new("gzip").arg("-f").arg(&file).status();
        assert!(ran.expect("gzip").success());
        let name = file.with_extension("xml.gz").into_os_string();
        let name = name.into_string().expect("a plain name");
        let source = open(name.as_bytes()).expect("a file");
        read("x.xml", source).expect("a source")
    };
    assert_eq!(packed(&text), read_slowly(&text, text.len()));
    let long = vec![b'x'; 1 << 20];
    let refusal = packed(&long).refused.expect("a refusal").refusal;
    assert_eq!((refusal.number, refusal.place), (20, 0));
}
