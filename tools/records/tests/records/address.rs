//! An address check by the proved code: what is printed and said of it, and that
//! nothing is where the second evaluator comes to something else.

use evaluator::address::{Outcome, Verdict};
use evaluator::refusal::Refusal;
use evaluator::txt::{Answer, Status};
use records::address::code::Proved;
use records::address::{agreed, said, Form, Said};
use sheets::address::{AddressHanded, Calls, GivenAnswer, Step};

const CONFIRMING: &str = "blue.example.com._report._dmarc.red.example.net";
const FORMS: [Form; 4] = [Form::Plain, Form::Explain, Form::Json, Form::Next];

fn handed(policy: &str, entry: &str, complete: bool) -> AddressHanded {
    AddressHanded {
        policy: policy.as_bytes().to_vec(),
        entry: entry.as_bytes().to_vec(),
        complete,
        ..AddressHanded::default()
    }
}

/// The example of RFC 9990, section 4, where this record is the only one.
fn example(record: &[u8]) -> AddressHanded {
    let mut example = handed("blue.example.com", "mailto:a@red.example.net", true);
    let own = |(line, name): (usize, &str)| GivenAnswer {
        name: name.as_bytes().to_vec(),
        status: Status::None,
        bytes: Vec::new(),
        line,
    };
    let names = [
        "_dmarc.blue.example.com",
        "_dmarc.example.com",
        "_dmarc.com",
        "_dmarc.red.example.net",
        "_dmarc.example.net",
        "_dmarc.net",
    ];
    example.answers = (1..).zip(names).map(own).collect();
    let length = record.len() as u8;
    example.answers.push(GivenAnswer {
        status: Status::Records,
        bytes: [b"TX\0", &[length + 1, length][..], record].concat(),
        ..own((7, CONFIRMING))
    });
    example
}

fn proved(form: Form, handed: &AddressHanded) -> Said {
    said(&mut Proved::default(), form, handed).unwrap_or_else(|how| panic!("{how}"))
}

#[test]
fn forms() {
    assert_eq!(Form::read(b"plain"), Some(Form::Plain));
    assert_eq!(Form::read(b"explain"), Some(Form::Explain));
    assert_eq!(Form::read(b"json"), Some(Form::Json));
    assert_eq!(Form::read(b"next"), Some(Form::Next));
    assert_eq!(Form::read(b"Next"), None);
    let complete = FORMS.map(Form::is_complete);
    assert_eq!(complete, [true, true, true, false]);
}

#[test]
fn what_is_printed_of_an_outcome() {
    let confirmed = example(b"v=DMARC1");
    let plain = proved(Form::Plain, &confirmed);
    assert_eq!(plain.printed.len(), 9);
    assert_eq!(plain.printed[6], format!("ask {CONFIRMING}"));
    assert_eq!(plain.printed[7..], ["agreement confirmed", "asked 7"]);
    assert_eq!((plain.notes.len(), plain.status), (0, 23));
    let next = proved(Form::Next, &confirmed);
    assert_eq!(next.printed, plain.printed[7..]);
    assert_eq!((next.notes.len(), next.status), (0, 23));
    let explained = proved(Form::Explain, &confirmed);
    assert_eq!(explained.printed[..9], plain.printed);
    assert_eq!(explained.printed[9], "-- why");
    let json = proved(Form::Json, &confirmed);
    assert_eq!(json.printed.len(), 1);
    let begin = "{\"agreement\":\"confirmed\",";
    assert!(json.printed[0].starts_with(begin), "{}", json.printed[0]);
}

#[test]
fn every_outcome_has_its_status() {
    for (record, line, status) in [
        (&b"junk"[..], "agreement no", 21),
        (b"v=DMARC1; rua=mailto:a@green.example", "agreement no", 21),
        (b"v=DMARC1; rua=a@green.example", "agreement confirmed", 23),
        (
            b"v=DMARC1; rua=mailto:b@red.example.net",
            "agreement replaced",
            24,
        ),
    ] {
        let told = proved(Form::Plain, &example(record));
        assert_eq!((told.printed[7].as_str(), told.status), (line, status));
        assert_eq!(told.notes.is_empty(), status != 24);
    }
    let missing = proved(Form::Plain, &handed("a", "mailto:x@b", true));
    let printed = ["ask _dmarc.a", "agreement not known", "asked 1"];
    assert_eq!(
        (&missing.printed[..], missing.status),
        (&printed.map(String::from)[..], 20)
    );
    let note = "no answer for _dmarc.a: read as a failed lookup";
    assert_eq!(missing.notes, [note]);
    let inside = proved(Form::Plain, &handed("a", "mailto:x@a", true));
    assert_eq!(
        (inside.printed[0].as_str(), inside.status),
        ("agreement inside", 22)
    );
}

/// The text that takes its place stands in the scratch behind that of another
/// record; what is no plain character in it is escaped.
#[test]
fn the_text_that_takes_its_place() {
    let rua = b"mailto:b@red.example.net,\\";
    let told = proved(
        Form::Plain,
        &example(&[b"v=DMARC1; rua=", &rua[..]].concat()),
    );
    assert_eq!(told.printed[8], "rua mailto:b@red.example.net,\\\\");
    let notes = [
        "reports may go to mailto:b@red.example.net",
        "nothing may go to entry 2 of rua, \"\\\\\": it has no `:`, as in mailto:a@example.com",
    ];
    assert_eq!(told.notes, notes);
}

#[test]
fn the_next_name_and_refusals() {
    let next = proved(Form::Next, &handed("a", "mailto:x@b", false));
    let expected = Said {
        printed: vec!["_dmarc.a".to_string()],
        notes: Vec::new(),
        status: 0,
    };
    assert_eq!(next, expected);
    for (policy, entry, number) in [("a..b", "x", 11), ("a", "x", 23)] {
        let refused = proved(Form::Next, &handed(policy, entry, false));
        assert_eq!(refused.printed, [format!("refused {number} at 0")]);
        assert_eq!((refused.notes.len(), refused.status), (1, 3));
    }
}

/// A code that gives one thing else than the proved one does.
struct Other {
    own: Proved,
    change: Change,
}

#[derive(Clone, Copy, Debug, PartialEq, Eq)]
enum Change {
    Name,
    Count,
    Outcome,
    Place,
    Text,
    Refusal,
    /// It never comes to an end.
    Endless,
}

impl Calls for Other {
    fn start(&mut self, policy: &[u8], entry: &[u8]) -> Result<(), Refusal> {
        let started = self.own.start(policy, entry);
        started.map_err(|own| match self.change {
            Change::Refusal => Refusal::new(own.number, own.place + 1),
            _ => own,
        })
    }

    fn next_step(&mut self) -> Result<Step, Refusal> {
        Ok(match (self.own.next_step()?, self.change) {
            (Step::Ask(name), Change::Name) => Step::Ask([&name[..], b"."].concat()),
            (_, Change::Endless) => Step::Ask(b"_dmarc.com".to_vec()),
            (Step::Verdict(verdict), change) => Step::Verdict(changed(verdict, change)),
            (step, _) => step,
        })
    }

    fn answer(&mut self, name: &[u8], answer: Answer, scratch: &mut [u8]) -> Result<(), Refusal> {
        if self.change == Change::Endless {
            return Ok(());
        }
        self.own.answer(name, answer, scratch)?;
        if self.change == Change::Text {
            scratch.iter_mut().for_each(|octet| *octet ^= 1);
        }
        Ok(())
    }
}

fn changed(verdict: Verdict, change: Change) -> Verdict {
    let outcome = match (verdict.outcome, change) {
        (_, Change::Outcome) => Outcome::Confirmed,
        (Outcome::Replaced { begin, length }, Change::Place) => Outcome::Replaced {
            begin: begin - 1,
            length,
        },
        (outcome, _) => outcome,
    };
    let asked = verdict.asked + usize::from(change == Change::Count);
    Verdict { outcome, asked }
}

/// In no form is anything said but how they differ.
#[test]
fn codes_that_differ() {
    let replaced = example(b"v=DMARC1; rua=mailto:b@red.example.net");
    let bad = handed("a..b", "x", true);
    for (change, handed) in [
        (Change::Name, &replaced),
        (Change::Count, &replaced),
        (Change::Outcome, &replaced),
        (Change::Place, &replaced),
        (Change::Text, &replaced),
        (Change::Endless, &replaced),
        (Change::Refusal, &bad),
    ] {
        for form in FORMS {
            let own = Proved::default();
            let told = said(&mut Other { own, change }, form, handed);
            let how = told.expect_err("a difference");
            let begin = "the proved code and the second evaluator differ, so nothing is said: the \
                         checks differ\n-- the proved code\n";
            assert!(how.starts_with(begin), "{change:?}: {how}");
        }
    }
    let (own, change) = (Proved::default(), Change::Place);
    let how = agreed(&mut Other { own, change }, &replaced).expect_err("a difference");
    assert!(
        how.contains("\n24 octets at 13 of the scratch\n-- the reference\n"),
        "{how}"
    );
    assert!(how.ends_with("\n24 octets at 14 of the scratch"), "{how}");
}
