//! What a refusal means for the message that got it, and where.

use crate::octets::{an, an_none, au, id, record, tx};
use evaluator::refusal::Refusal;
use sheets::refused::{general, meaning};

/// The refusal of a sheet, what is said of it and of which place.
fn refused(sheet: &[u8]) -> (Refusal, String, usize) {
    let refusal = evaluator::sheet::verdict(sheet).expect_err("a refusal");
    let meaning = meaning(sheet, refusal);
    (refusal, meaning.sentence, meaning.place)
}

fn says(sheet: &[u8], number: u8, sentence: &str, place: usize) {
    let (refusal, said, at) = refused(sheet);
    assert_eq!(
        (refusal.number, said.as_str(), at),
        (number, sentence, place)
    );
}

fn author() -> Vec<u8> {
    au(1, 1, b"a.b")
}

#[test]
fn identifiers() {
    let (one, first) = (author().len(), id(0, 1, b"b").len());
    let sheet = [author(), id(0, 1, b"b"), id(1, 1, b"joe@c.d")].concat();
    let why = "the identifier's domain breaks the rule: \
               `joe@c.d` is an address; give its domain alone: c.d";
    says(&sheet, 2, why, one + first);
    let sheet = [author(), id(0, 1, b"b"), id(0, 0, b"b")].concat();
    let why = "a second SPF identifier, and a message has one at the most";
    says(&sheet, 4, why, one + first);
    let seventeen = [author(), id(1, 1, b"b").repeat(17)].concat();
    let why = "the 17th identifier, and a message has 16 at the most; \
               leave out some whose outcome is fail";
    says(&seventeen, 4, why, one + 16 * first);
}

#[test]
fn numbers_that_are_not_listed() {
    let one = author().len();
    let existence = "existence 3 is not listed: 0 no, 1 yes, 2 not known";
    says(&au(3, 9, b"a"), 3, existence, 0);
    let support = "support 2 is not listed: 0 no, 1 yes";
    says(&au(2, 2, b"a"), 3, support, 0);
    let kind = "the identifier's kind 2 is not listed: 0 SPF, 1 DKIM";
    says(&[author(), id(2, 7, b"b")].concat(), 3, kind, one);
    let outcome = "the identifier's outcome 7 is not listed: \
                   0 not passing, 1 pass, 2 temporary error";
    says(&[author(), id(1, 7, b"b")].concat(), 3, outcome, one);
}

/// The answer of a name that is asked second, after an answer and an identifier.
fn answer(bytes: &[u8], why: &str) {
    let before = [author(), id(0, 0, b"b"), an_none("_dmarc.a.b")].concat();
    let sheet = [before.clone(), an(0, b"_DMARC.b.", bytes)].concat();
    let sentence = format!("the answer for _dmarc.b {why}; hand it in as an error, never as none");
    says(&sheet, 6, &sentence, before.len());
}

#[test]
fn answers() {
    let long = tx(&[[b'x'; 255].as_slice(); 16]);
    assert_eq!(long.len(), 4100);
    let counted = "4 for each record and 1 for each string among them";
    answer(
        &long,
        &format!("has 4100 octets, {counted}, and 4,096 at the most"),
    );
    answer(&tx(&[b""]).repeat(17), "has 17 records, and 16 at the most");
    answer(b"TX\0\x02\x02", "cannot be read as TXT records");
}

#[test]
fn broken_sheets() {
    let one = author().len();
    let after = |octets: &[u8]| [author(), octets.to_vec()].concat();
    let broken = |octets: &[u8], why: &str| says(&after(octets), 8, why, one);
    says(b"", 8, "the sheet is empty", 0);
    says(b"AU", 8, "2 octets are left over, too few for a record", 0);
    says(
        &record(b"XX", b"abc"),
        8,
        "the sheet begins with `XX`, and not with AU",
        0,
    );
    says(
        &record(b"AU", b"a"),
        8,
        "a record AU has less than two octets",
        0,
    );
    broken(b"AN\0", "3 octets are left over, too few for a record");
    broken(
        b"AN\0\x09abc",
        "a record says that it has 9 octets, and 3 are left",
    );
    broken(&author(), "a second record AU");
    broken(
        &record(b"XX", b"abc"),
        "`XX` is no mark of a record: these are AU, ID and AN",
    );
    broken(
        &record(b"AN", b"\x03\x01b"),
        "the status 3 is not listed: 0 records, 1 none, 2 error",
    );
    broken(
        &record(b"AN", b"\x01\x02b"),
        "the name of an answer goes past the end of its record",
    );
    broken(
        &record(b"AN", b"\x01\x00"),
        "the name of an answer breaks the domain rule: it is empty",
    );
    broken(
        &record(b"AN", b"\x01\x01bc"),
        "octets come after the name of an answer of none or error",
    );
    let second = one + an_none("b").len();
    let twice = after(&[an_none("b"), an_none("B.")].concat());
    says(&twice, 8, "the name B. is answered already", second);
    let late = after(&[an_none("b"), id(0, 0, b"b")].concat());
    says(&late, 8, "a record ID comes after a record AN", second);
    let long = after(&an(0, b"b", &[0; 60_000]).repeat(2));
    says(&long, 8, "the sheet is over 65,536 octets", 65_536);
}

#[test]
fn every_number_of_a_sheet_has_general_words() {
    for number in [1, 2, 3, 4, 6, 8] {
        assert_ne!(general(number).1, "", "{number}");
    }
    assert_eq!(general(5), ("no sheet gets this one", ""));
}
