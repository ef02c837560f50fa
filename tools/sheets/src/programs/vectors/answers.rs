//! Answers: readings 22 to 29, 34, 48, 49 and 126.

mod repeats;

use super::case::AnswerCase;
use super::octets::padded;
use crate::written::{answer_bytes, text_answer};
use evaluator::txt::Status;

/// Just enough scratch.
const ENOUGH: u16 = 4096;
/// 22: none, one octet, one short, just enough, more, the most.
const SIZES: [u16; 6] = [0, 1, 4095, 4096, 5000, 65_535];

const POLICY: &[u8] = b"v=DMARC1; p=reject; sp=quarantine; rua=mailto:r@e.com";

pub fn answers() -> Vec<AnswerCase> {
    let mut answers = sizes();
    answers.extend(unread());
    answers.extend(limits());
    answers.extend(unreadable());
    answers.extend(readable());
    answers.extend(replies());
    answers.extend(repeats::answers());
    answers.extend(late_faults());
    answers.extend(cuts());
    answers.extend(lengths());
    answers
}

fn answer(status: Status, bytes: Vec<u8>) -> AnswerCase {
    AnswerCase {
        status,
        scratch: ENOUGH,
        bytes,
    }
}

/// Records with just enough scratch.
fn records(bytes: &[u8]) -> AnswerCase {
    answer(Status::Records, bytes.to_vec())
}

impl AnswerCase {
    fn scratch(self, scratch: u16) -> AnswerCase {
        AnswerCase { scratch, ..self }
    }
}

/// A record of these character-strings, each of at most 255 octets.
fn strings(strings: &[&[u8]]) -> Vec<u8> {
    answer_bytes(&[strings.to_vec()]).unwrap_or_default()
}

/// A record with this text, in strings of 255 octets and a rest.
fn text(text: &[u8]) -> Vec<u8> {
    text_answer(text).unwrap_or_default()
}

/// A record for each of these texts.
fn texts(texts: &[&[u8]]) -> AnswerCase {
    let each: Vec<Vec<u8>> = texts.iter().map(|one| text(one)).collect();
    records(&each.concat())
}

/// 22 and 24: every kind of answer at every size of scratch; 6 before 10.
fn sizes() -> Vec<AnswerCase> {
    let kinds = [
        records(b""),
        answer(Status::None, Vec::new()),
        answer(Status::Error, Vec::new()),
        texts(&[b"abcde"]),
        texts(&[POLICY]),
        texts(&[POLICY, POLICY]),
        records(b"TX"),
        records(&text(b"a").repeat(17)),
    ];
    let mut answers = Vec::new();
    for kind in kinds {
        for size in SIZES {
            answers.push(kind.clone().scratch(size));
        }
    }
    // The examples of 22 and 24, and 24 with an answer that is too long.
    answers.push(texts(&[b"abcde"]).scratch(100));
    answers.push(records(b"TX").scratch(10));
    answers.push(records(&padded(b"", b'X', b"", 4097)).scratch(4095));
    answers
}

/// 23: bytes that come with none or error are not read.
fn unread() -> Vec<AnswerCase> {
    let junk = [b"TX".to_vec(), text(b"a").repeat(17), text(POLICY)];
    // The example of 23, and as an error: over the limit of an answer.
    let mut answers = vec![
        answer(Status::None, vec![b'X'; 5000]),
        answer(Status::Error, vec![0; 4097]),
    ];
    for bytes in junk {
        answers.push(answer(Status::None, bytes.clone()));
        answers.push(answer(Status::Error, bytes.clone()));
        answers.push(answer(Status::Error, bytes).scratch(4095));
    }
    answers
}

/// One record of so many octets, a policy record that is all text.
fn policy_record(octets: usize) -> Vec<u8> {
    // A string of 255 octets takes 256, and the head takes 4.
    let strings = (octets - 4).div_ceil(256);
    text(&padded(
        b"v=DMARC1; p=reject; x=",
        b'z',
        b"; t=y",
        octets - 4 - strings,
    ))
}

/// 25: 16 records with a last string of so many octets; the others together
/// have 3,906 octets of text in 4,012 octets.
fn sixteen_records(last: usize) -> Vec<u8> {
    let string = [b'f'; 93].as_slice();
    let mut bytes = strings(&[string, string]).repeat(15);
    let mut more = vec![string; 12];
    let last = vec![b'l'; last];
    more.push(&last);
    bytes.extend(strings(&more));
    bytes
}

/// 25 and 26: the limits, on the answer as it is handed in and as a whole.
fn limits() -> Vec<AnswerCase> {
    let one = text(b"a");
    let policy = text(POLICY);
    vec![
        // 4,095, 4,096 and 4,097 octets in one record.
        records(&policy_record(4095)),
        records(&policy_record(4096)),
        records(&policy_record(4097)),
        // 4,096 octets, and the example of 25: 4,097 with texts of 3,990.
        records(&sixteen_records(83)),
        records(&sixteen_records(84)),
        // 15, 16, 17 and 40 records; 17 and more by the rests' own count.
        records(&one.repeat(15)),
        records(&one.repeat(16)),
        records(&one.repeat(17)),
        records(&one.repeat(18)),
        records(&one.repeat(32)),
        records(&one.repeat(40)),
        records(&strings(&[b""]).repeat(16)),
        records(&strings(&[b""]).repeat(17)),
        // The single policy record first, in the middle, last, one too far.
        records(&[policy.clone(), one.repeat(15)].concat()),
        records(&[one.repeat(7), policy.clone(), one.repeat(8)].concat()),
        records(&[one.repeat(15), policy.clone()].concat()),
        records(&[one.repeat(16), policy].concat()),
        // 16 good records and an octet more.
        records(&[one.repeat(16), b"T".to_vec()].concat()),
        records(&[one.repeat(16), vec![0]].concat()),
    ]
}

/// 27: what is unreadable.
fn unreadable() -> Vec<AnswerCase> {
    let bytes: &[&[u8]] = &[
        // Fewer than 4 octets left.
        b"T",
        b"TX",
        b"TX\0",
        b"\0",
        // RDATA of 0 octets, alone, before and after a good record.
        b"TX\0\0",
        b"TX\0\0TX\0\x02\x01a",
        b"TX\0\x02\x01aTX\0\0",
        // Another mark.
        b"tx\0\x02\x01a",
        b"Tx\0\x02\x01a",
        b"tX\0\x02\x01a",
        b"XT\0\x02\x01a",
        b"TY\0\x02\x01a",
        b"SX\0\x02\x01a",
        b"AN\0\x02\x01a",
        b"\0\0\0\x02\x01a",
        b" TX\0\x02\x01a",
        b"TX\0\x02\x01aTx\0\x02\x01b",
        // A length past the end, also by its high octet.
        b"TX\0\x01",
        b"TX\0\x03\x01a",
        b"TX\xff\xff\x01a",
        b"TX\x01\0\x01a",
        b"TX\x02\0\x01a",
        // A string past RDATA, though the answer has more octets.
        b"TX\0\x01\x01",
        b"TX\0\x02\x02a",
        b"TX\0\x02\x02ab",
        b"TX\0\x01\x01a",
        b"TX\0\x02\xffa",
        b"TX\0\x02\x08aTX\0\x02\x01b",
        // A second string past RDATA.
        b"TX\0\x03\x01a\x01",
        b"TX\0\x04\x01a\x02b",
        // Octets left over.
        b"TX\0\x02\x01ab",
        b"TX\0\x02\x01a\0",
        b"TX\0\x02\x01aT",
        b"TX\0\x02\x01aTX",
        b"TX\0\x02\x01aTX\0",
        b"v=DMARC1; p=none",
    ];
    bytes.iter().map(|bytes| records(bytes)).collect()
}

/// 27 to 29: what is readable, and what lies in the scratch.
fn readable() -> Vec<AnswerCase> {
    let most = [b's'; 255].as_slice();
    let low: Vec<u8> = (0..=127).collect();
    let high: Vec<u8> = (128..=255).collect();
    vec![
        // Strings of no octets.
        records(b"TX\0\x01\0"),
        records(b"TX\0\x03\0\0\0"),
        records(&strings(&[b"", b"a", b"", b"b", b""])),
        texts(&[b"", b"", b"a", b""]),
        // Any octets; a string of 255; the length's high octet.
        records(&strings(&[&low, &high])),
        texts(&[&high, &low]),
        texts(&[b"\0\0\0"]),
        texts(&[b"a\xff\xff", b"\xff"]),
        texts(&[b"\xff", b"\xffa"]),
        records(&strings(&[most])),
        records(&strings(&[most, b""])),
        records(&strings(&[most, most, b"b"])),
        records(&strings(&[&most[..254]])),
        records(&strings(&[&[b'h'; 128], &[b'i'; 127]])),
        // A text that looks like a record.
        texts(&[b"TX\0\x02\x01a"]),
        // 29: texts run on, also those that are no policy record.
        texts(&[b"ab", b"v=DMARC1; p=none"]),
        texts(&[b"v=DMARC1; p=none", b"ab"]),
        texts(&[b"one", b"two", b"three"]),
        texts(&[b"ab", b"v=DMARC1; p=none"]).scratch(5000),
        texts(&[b"0123456789012345678901234567890123456789"]),
        texts(&[b"01234567890123456789012345678901234567890"]),
    ]
}

/// 34, 48 and 49: the record at the name, from strings that are joined.
fn replies() -> Vec<AnswerCase> {
    let long = padded(b"v=DMARC1; p=none; x=", b'z', b"; rua=mailto:r@e.com", 600);
    let single: Vec<&[u8]> = POLICY.chunks(1).collect();
    vec![
        texts(&[b"v=DMARC1; p=reject; sp=quarantine; np=reject; aspf=s"]),
        texts(&[b"v=DMARC1; p=reject; psd=y"]),
        texts(&[b"v=DMARC1; p=none; np=often; adkim=s; psd=n; t=y; rua=a:b"]),
        // Strings are joined without separators.
        records(&strings(&[b"v=DMA", b"RC1; p=rej", b"ect"])),
        records(&strings(&[b"v=DMARC1", b"", b"; p=none"])),
        records(&strings(&[b"", b"v=DMARC1; p=none", b""])),
        records(&strings(&[b"v=DMARC1; p=none", b"sp=reject"])),
        records(&strings(&[b"v=DMARC1; p=none;", b"sp=reject"])),
        records(&strings(&[b"v=DMARC1", b" ", b"x"])),
        records(&strings(&single)),
        // A record longer than 255 octets.
        texts(&[&long]),
        texts(&[&padded(b"v", b' ', b"=DMARC1; p=quarantine", 600)]),
        texts(&[b"junk", &long, b"v=spf1 -all"]),
        // Records are not joined.
        texts(&[b"v=DMA", b"RC1; p=none"]),
        texts(&[b"v=DMARC1; p=none", b"; sp=reject"]),
        // 34: no policy record.
        texts(&[b"v=spf1 -all", b"junk", b""]),
        texts(&[b"v=dmarc1; p=reject"]),
        texts(&[b" v=DMARC1; p=reject"]),
        // 48: two or more are all dropped, identical and unusable ones too.
        texts(&[b"v=DMARC1; p=none", b"v=DMARC1"]),
        texts(&[b"v=DMARC1; p=none", b"v=DMARC1; p=none"]),
        texts(&[b"v=DMARC1; p=none", b"v=DMARC1; p=reject"]),
        texts(&[b"v=DMARC1; p=often", b"v=DMARC1; p=reject"]),
        texts(&[b"v=DMARC1; p=reject", b"junk", b"v=DMARC1; p=often"]),
        texts(&[b"v=DMARC1; p=none", b"v=DMARC1", b"V=DMARC1"]),
        records(&text(b"v=DMARC1; p=none").repeat(16)),
        // 48: junk beside one record does no harm.
        texts(&[b"junk", b"v=DMARC1; p=reject", b"v=spf1"]),
        texts(&[b"v=dmarc1; p=none", b"v=DMARC1; p=reject"]),
        texts(&[b"v=DMARC1; p=reject", b" v=DMARC1; p=none"]),
        texts(&[b"", b"v=DMARC1; p=quarantine"]),
        texts(&[b"v=DMARC1; p=quarantine", b""]),
        // 49: an unusable record is a record.
        texts(&[b"v=DMARC1"]),
        texts(&[b"v=DMARC1; p=often"]),
        texts(&[b"v=DMARC1; rua=mailto:r@example.com"]),
        texts(&[b"v=DMARC1; p=often; rua=mailto:r@example.com!10m"]),
    ]
}

/// 24: a fault in the last of 2, 15 and 16 records: nothing is written.
fn late_faults() -> Vec<AnswerCase> {
    let good = text(b"v=DMARC1; p=none");
    let bad: [&[u8]; 5] = [
        b"TX\0\x02\x02a",
        b"TX\0\x03\x01a",
        b"TX\0\0",
        b"tx\0\x02\x01a",
        b"TX\0\x03\x01a\x01",
    ];
    let mut answers = Vec::new();
    for earlier in [1, 14, 15] {
        for last in bad {
            answers.push(records(&[good.repeat(earlier), last.to_vec()].concat()));
        }
    }
    answers
}

/// 27 and 28: an answer of two records, the first of two strings, cut after
/// each of its octets. The cuts at 0, after one record and at its end are good.
fn cuts() -> Vec<AnswerCase> {
    let whole = [
        strings(&[b"v=DMARC1", b"; p=none"]),
        strings(&[b"a", b"", b"bc"]),
    ]
    .concat();
    let cut = |end: usize| whole.get(..end).map(records);
    (0..=whole.len()).filter_map(cut).collect()
}

/// 27: three records of one octet of text each, with another length in the
/// middle one, then with another length of its string.
fn lengths() -> Vec<AnswerCase> {
    let mut answers = Vec::new();
    for length in (0..=16).chain([255]) {
        let first: [&[u8]; 3] = [b"TX\0\x02\x01aTX\0", &[length], b"\x01bTX\0\x02\x01c"];
        let second: [&[u8]; 3] = [b"TX\0\x02\x01aTX\0\x02", &[length], b"bTX\0\x02\x01c"];
        answers.push(records(&first.concat()));
        answers.push(records(&second.concat()));
    }
    answers
}
