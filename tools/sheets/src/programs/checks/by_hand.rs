//! Checks written by hand, each run to its verdict with every refused call in
//! between.

use super::call::{Call, StartCall};
use super::refused::{ENTRIES, POLICIES};
use crate::programs::calls::scramble::{RECORD, UNREADABLE};
use crate::programs::calls::AnswerCall;
use crate::written::answer_bytes;
use evaluator::address::book::AddressBook;
use evaluator::txt::Status;

const POLICY: &str = "blue.example.com";
const ENTRY: &str = "mailto:reports@red.example.net";
const CONFIRMING: &str = "blue.example.com._report._dmarc.red.example.net";
/// The example's confirming answers.
const CONFIRMED: [&[&str]; 34] = [
    &["v=DMARC1"],
    &[],
    &["junk"],
    &["junk", "v=DMARC1;"],
    &["v=DMARC1", "v=DMARC1"],
    &["v=dmarc1"],
    &["v=DMARC1; p=none; p=none"],
    &["v=DMARC1; x=1; X=2", "v=DMARC1"],
    &["v=DMARC1; rua=mailto:x@red.example.net"],
    &["junk", "v=DMARC1;rua=  mailto:x@red.example.net ; p=none"],
    &["v=DMARC1; RUA = mailto:a@RED.example.net. , mailto:b@red.example.net"],
    &["v=DMARC1; rua=mailto:x@green.example"],
    &["v=DMARC1; rua=mailto:x@example.net"],
    &["v=DMARC1; rua=mailto:x@a.red.example.net"],
    &["v=DMARC1; rua=mailto:x@blue.example.com"],
    &["v=DMARC1; rua=mailto:x@red.example.net,mailto:x@green.example"],
    &["v=DMARC1; rua=mailto:x@green.example,mailto:x@red.example.net"],
    &["v=DMARC1; rua=mailto:x@green.example,mailto:y@green.example"],
    &["v=DMARC1; rua=mailto:x@green.example@red.example.net"],
    &["v=DMARC1; rua=mailto:x@red.example.net?to=y@green.example"],
    &["v=DMARC1; rua=https://green.example/r"],
    &["v=DMARC1; rua=https://red.example.net/r"],
    &["v=DMARC1; rua=mailto:x@green.example!10m"],
    &["v=DMARC1; rua=mailto:x@red.example.net!10m"],
    &["v=DMARC1; rua=mailto:x@green.example!10m,mailto:x@red.example.net"],
    &["v=DMARC1; rua=https://green.example, ,mailto:x@red.example.net,mailto:"],
    &["v=DMARC1; rua=mailto:x@red.example.net..,mailto:green.example"],
    &["v=DMARC1; rua=mailto:x@red.example.net?subject=y"],
    &["v=DMARC1", "v=DMARC1; rua=mailto:x@red.example.net"],
    &[
        "v=DMARC1; rua=mailto:1@red.example.net",
        "v=DMARC1; rua=mailto:2@red.example.net",
    ],
    &[
        "v=DMARC1; rua=mailto:1@red.example.net",
        "v=DMARC1; rua=mailto:2@green.example",
    ],
    &[
        "v=DMARC1; rua=https:x",
        "v=DMARC1; rua=mailto:2@green.example",
        "v=DMARC1; rua=mailto:2@red.example.net",
    ],
    &[
        "v=DMARC1; p=none; p=none; rua=mailto:1@green.example",
        "v=DMARC1; rua=mailto:2@red.example.net",
    ],
    &[
        "v=spf1 -all; rua=mailto:1@green.example",
        "",
        "v=DMARC1; psd=y; rua=mailto:2@red.example.net",
    ],
];
/// A policy domain, an entry, and the record of each domain that has one.
type Row = (
    &'static str,
    &'static str,
    &'static [(&'static str, &'static str)],
);

/// Starts whose names have these records, and all others none.
const STARTED: [Row; 22] = [
    ("example.com", "mailto:a@example.com", &[]),
    ("Example.COM", "mailto:a@example.com.", &[]),
    ("example.com.", "MAILTO:@EXAMPLE.com", &[]),
    ("a", "mailto:x@b", &[]),
    ("A.", "mailto:x@y?z=w@B", &[]),
    ("a", "\tmailto:x@b ", &[]),
    ("a.example.com", "mailto:x@b.example.com", &[]),
    (
        "A.example.com",
        "mailto:x@b.Example.com.",
        &[("example.com", "v=DMARC1; p=none")],
    ),
    (
        "example.com",
        "mailto:x@b.example.com",
        &[("example.com", "v=DMARC1; p=none")],
    ),
    (
        "b.example.com",
        "mailto:x@example.com",
        &[("example.com", "v=DMARC1; p=none")],
    ),
    (
        "b.example.com",
        "mailto:x@example.com",
        &[("b.example.com", "v=DMARC1; psd=n")],
    ),
    (
        "b.example.com",
        "mailto:x@example.com",
        &[("b.example.com", "v=DMARC1; p=none")],
    ),
    (
        "b.example.com",
        "mailto:x@c.example.com",
        &[("com", "v=DMARC1; p=none")],
    ),
    (
        "b.example.com",
        "mailto:x@c.example.com",
        &[("com", "v=DMARC1; psd=y")],
    ),
    (
        "b.example.com",
        "mailto:x@c.example.com",
        &[("example.com", "v=DMARC1; psd=y")],
    ),
    (
        "b.example.com",
        "mailto:x@c.example.com",
        &[("example.com", "v=DMARC1; p=none; p=none")],
    ),
    (
        "b.com",
        "mailto:x@c.com",
        &[
            ("b.com", "v=DMARC1"),
            ("c.com", "v=DMARC1"),
            ("com", "v=DMARC1"),
        ],
    ),
    (
        "a.b.c.d.e.f.g.h.i.one",
        "mailto:x@a.b.c.d.e.f.g.h.i.two",
        &[],
    ),
    (
        "a.b.c.d.e.f.g.one",
        "mailto:x@a.b.c.d.e.f.g.h.i.j.k.two",
        &[],
    ),
    (
        "a.b.c.d.e.f.g.h.i.one",
        "mailto:x@z.b.c.d.e.f.g.h.i.one",
        &[],
    ),
    ("_dmarc.b", "mailto:x@b", &[("b", "v=DMARC1")]),
    ("b", "mailto:x@_report._dmarc.b", &[]),
];

/// The answer of a whole name; all others answer none.
type Answered = (String, Status, Vec<u8>);

/// All of them on one state.
pub fn calls() -> Vec<Call> {
    let mut list = List::default();
    list.refused_starts();
    let start = StartCall::new(POLICY.as_bytes(), ENTRY.as_bytes());
    for texts in CONFIRMED {
        list.run(&start, &[answered(CONFIRMING, texts)]);
    }
    list.errors(&start);
    for (policy, entry, records) in STARTED {
        let start = StartCall::new(policy.as_bytes(), entry.as_bytes());
        let at = |(domain, text): &(&str, &str)| answered(&format!("_dmarc.{domain}"), &[text]);
        list.run(&start, &records.iter().map(at).collect::<Vec<_>>());
    }
    list.near_the_limit();
    list.started_over();
    list.made
}

/// An answer of texts.
fn answered(name: &str, texts: &[&str]) -> Answered {
    let records: Vec<Vec<&[u8]>> = texts.iter().map(|text| strings(text)).collect();
    let bytes = answer_bytes(&records).unwrap_or_default();
    (name.to_string(), Status::Records, bytes)
}

/// A text cut into strings of seven octets, and an empty one.
fn strings(text: &str) -> Vec<&[u8]> {
    let chunks = text.as_bytes().chunks(7);
    chunks.chain([b"".as_slice()]).collect()
}

#[derive(Default)]
struct List {
    book: AddressBook,
    made: Vec<Call>,
}

impl List {
    /// Makes a call.
    fn push(&mut self, call: Call) {
        let mut lent = vec![0; call.lent()];
        call.make(&mut self.book, &mut lent);
        self.made.push(call);
    }

    fn push_answer(&mut self, name: &[u8], status: Status, bytes: &[u8], scratch: u16) {
        self.push(Call::Answer(AnswerCall {
            status,
            scratch,
            name: name.to_vec(),
            bytes: bytes.to_vec(),
        }));
    }

    /// Where nothing was started, each start that is refused.
    fn refused_starts(&mut self) {
        for policy in POLICIES {
            self.push(Call::Start(StartCall::new(policy, b"mailto:a@b.c")));
            self.push(Call::Start(StartCall::new(policy, b"x")));
            self.push(Call::Next);
            self.push(Call::Result);
        }
        for entry in ENTRIES {
            self.push(Call::Start(StartCall::new(b"a.example.", entry)));
            self.push_answer(b"_dmarc.a.example", Status::Records, RECORD, 4096);
            self.push_answer(b"", Status::Error, b"T", 0);
        }
        let long = "a.".repeat(126);
        for last in ["b", "b.", "bc"] {
            let domain = format!("{long}{last}");
            let entry = format!("mailto:x@{domain}");
            self.push(Call::Start(StartCall::new(domain.as_bytes(), b"x")));
            self.push(Call::Start(StartCall::new(b"a", entry.as_bytes())));
            self.push(Call::Next);
        }
    }

    /// A check to its verdict.
    fn run(&mut self, start: &StartCall, answers: &[Answered]) {
        self.push(Call::Start(start.clone()));
        self.push(Call::Result);
        while self.book.result().is_err() {
            self.push(Call::Next);
            self.refused(start);
            self.push(Call::Next);
            let name = self.book.now_asked().unwrap_or_default().to_vec();
            self.answer(&name, answers);
        }
        for call in [Call::Result, Call::Next, Call::Result, Call::Next] {
            self.push(call);
        }
    }

    /// The answer of the name now asked, at its second name in capitals and with a
    /// final dot, and the same again.
    fn answer(&mut self, name: &[u8], answers: &[Answered]) {
        let own = answers.iter().find(|own| own.0.as_bytes() == name);
        let none = (Status::None, Vec::new());
        let (status, bytes) = own.map_or(none, |own| (own.1, own.2.clone()));
        let given = match self.book.names().len() % 2 {
            0 => [name.to_ascii_uppercase().as_slice(), b"."].concat(),
            _ => name.to_vec(),
        };
        self.push_answer(&given, status, &bytes, 4096);
        self.push_answer(&given, status, &bytes, 4096);
    }

    /// Every call that is refused while a name is asked.
    fn refused(&mut self, start: &StartCall) {
        let name = self.book.now_asked().unwrap_or_default().to_vec();
        let (without, dots) = (name.get(7..).unwrap_or_default(), b"..".as_slice());
        for wrong in [
            without,
            &[&name[..], dots].concat(),
            b"",
            b"_dmarc.elsewhere",
        ] {
            self.push_answer(wrong, Status::Records, RECORD, 4096);
            self.push_answer(wrong, Status::Records, b"T", 0);
            self.push_answer(wrong, Status::Error, b"", 0);
        }
        self.push(Call::Result);
        for bytes in UNREADABLE {
            self.push_answer(&name, Status::Records, bytes, 4096);
        }
        self.push_answer(&name, Status::Records, &b"TX\0\x02\x01a".repeat(17), 4096);
        self.push_answer(&name, Status::Records, b"TX\0\0", 0);
        for status in [Status::Records, Status::None, Status::Error] {
            self.push_answer(&name, status, RECORD, 4095);
        }
        self.push_answer(&name, Status::None, b"T", 0);
        let bad = StartCall::new(b"a..b", &start.entry);
        self.push(Call::Start(bad));
        self.push(Call::Start(StartCall::new(&start.policy, b"mailto:a@b,")));
    }

    /// The example with an error at each of its names in turn.
    fn errors(&mut self, start: &StartCall) {
        let names = [
            "_dmarc.blue.example.com",
            "_dmarc.example.com",
            "_dmarc.com",
            "_dmarc.red.example.net",
            "_dmarc.example.net",
            "_dmarc.net",
            CONFIRMING,
        ];
        for name in names {
            let error = (name.to_string(), Status::Error, Vec::new());
            let confirmed = answered(CONFIRMING, &["v=DMARC1"]);
            self.run(start, &[error, confirmed]);
        }
        // Bytes that come with none or error are not read.
        for status in [Status::None, Status::Error] {
            let given = (CONFIRMING.to_string(), status, RECORD.to_vec());
            self.run(start, &[given]);
        }
    }

    /// Confirming names of 252 to 255 octets, all of which would confirm.
    fn near_the_limit(&mut self) {
        for octets in [252, 253, 254, 255] {
            let label = "x".repeat(57);
            let policy = format!("{label}.{}.p", "y".repeat(octets - 249));
            let host = format!("{label}.{label}.{}.h", "z".repeat(55));
            let name = format!("{policy}._report._dmarc.{host}");
            let start = StartCall::new(policy.as_bytes(), format!("mailto:x@{host}.").as_bytes());
            self.run(&start, &[answered(&name, &["v=DMARC1"])]);
        }
    }

    /// A start over a check that is not at its end.
    fn started_over(&mut self) {
        let (first, second) = (
            StartCall::new(b"a.test", b"mailto:x@b.test"),
            StartCall::new(b"a.test", b"mailto:y@c.test"),
        );
        for start in [&first, &second, &first] {
            self.push(Call::Start(start.clone()));
            self.push(Call::Next);
            self.push(Call::Answer(AnswerCall::none(b"_dmarc.a.test")));
            self.push(Call::Next);
        }
        self.push(Call::Start(second.clone()));
        self.push(Call::Answer(AnswerCall::none(b"_dmarc.test")));
        self.run(&second, &[]);
        // A new start where there is a verdict.
        self.push(Call::Start(first));
        self.push(Call::Result);
        self.push(Call::Next);
    }
}
