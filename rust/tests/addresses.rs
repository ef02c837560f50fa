//! Address checks by the interface. What must come out is written by hand from Ask 11
//! of document 02.

use waslidhaj::raw::Check;
use waslidhaj::{records, AddressCheck, AddressOutcome, AddressStep, Agreement, Answer, Refusal};
use waslidhaj::{CHECK_NAME_OCTETS, SCRATCH_OCTETS};

const POLICY: &str = "blue.example.com";
const ENTRY: &str = "mailto:reports@red.example.net";
/// The names of that check, the confirming one last.
const NAMES: [&str; 7] = [
    "_dmarc.blue.example.com",
    "_dmarc.example.com",
    "_dmarc.com",
    "_dmarc.red.example.net",
    "_dmarc.example.net",
    "_dmarc.net",
    CONFIRMING,
];
const CONFIRMING: &str = "blue.example.com._report._dmarc.red.example.net";

fn start(policy: &str, entry: &str) -> AddressCheck {
    AddressCheck::start(policy, entry).expect("an address")
}

/// Records of short texts.
fn texts(texts: &[&str]) -> Vec<u8> {
    let rdata = |text: &&str| [&[text.len() as u8], text.as_bytes()].concat();
    let rdatas: Vec<Vec<u8>> = texts.iter().map(rdata).collect();
    records(&rdatas).expect("short texts")
}

/// A check to its outcome: this answer for this name, all else none. Gives the names
/// asked, the outcome, and the scratch.
fn run(
    mut check: AddressCheck,
    name: &str,
    answer: Answer,
) -> (Vec<String>, AddressOutcome, [u8; SCRATCH_OCTETS]) {
    let (mut asked, mut scratch) = (Vec::new(), [7; SCRATCH_OCTETS]);
    loop {
        let own = match check.next().expect("a step") {
            AddressStep::Ask(own) => own,
            AddressStep::Outcome(outcome) => {
                assert_eq!(check.result(), Ok(outcome));
                assert_eq!(outcome.asked, asked.len());
                return (asked, outcome, scratch);
            }
        };
        let answer = match own.as_str() == name {
            true => answer,
            false => Answer::NoRecords,
        };
        let answered = check.answer(own, answer, &mut scratch);
        answered.expect("the name is asked");
        asked.push(own.to_string());
    }
}

fn agreement(answer: Answer) -> Agreement {
    run(start(POLICY, ENTRY), CONFIRMING, answer).1.agreement
}

#[test]
fn inside_with_nothing_asked() {
    let check = start("Example.com.", "mailto:reports@example.COM");
    let (asked, outcome, _) = run(check, "", Answer::Error);
    assert!(asked.is_empty());
    assert_eq!(outcome.agreement, Agreement::Inside);
    assert!(outcome.agreement.may_send());
}

#[test]
fn inside_by_the_organizational_domain() {
    let check = start("a.example.com", "mailto:reports@B.example.com");
    let record = texts(&["v=DMARC1; p=none"]);
    let (asked, outcome, _) = run(check, "_dmarc.example.com", Answer::Records(&record));
    let names = [
        "_dmarc.a.example.com",
        "_dmarc.example.com",
        "_dmarc.com",
        "_dmarc.b.example.com",
    ];
    assert_eq!(asked, names);
    assert_eq!(outcome.agreement, Agreement::Inside);
}

#[test]
fn confirmed() {
    let record = texts(&["junk", "v=DMARC1"]);
    let (asked, outcome, _) = run(start(POLICY, ENTRY), CONFIRMING, Answer::Records(&record));
    assert_eq!(asked, NAMES);
    assert_eq!(outcome.agreement, Agreement::Confirmed);
    assert!(outcome.agreement.may_send());
    assert_eq!(outcome.agreement.instead(&[7; SCRATCH_OCTETS]), None);
}

#[test]
fn a_plain_no() {
    let (asked, outcome, _) = run(start(POLICY, ENTRY), "", Answer::Error);
    assert_eq!(asked, NAMES);
    assert_eq!(outcome.agreement, Agreement::No);
    assert!(!outcome.agreement.may_send());
    let junk = texts(&["v=spf1 -all"]);
    assert_eq!(agreement(Answer::Records(&junk)), Agreement::No);
    // Another host.
    let other = texts(&["v=DMARC1; rua=mailto:x@green.example"]);
    assert_eq!(agreement(Answer::Records(&other)), Agreement::No);
}

/// After an error nothing more is asked.
#[test]
fn not_known() {
    for (index, name) in NAMES.iter().enumerate() {
        let (asked, outcome, _) = run(start(POLICY, ENTRY), name, Answer::Error);
        assert_eq!(asked, NAMES[..=index]);
        assert_eq!(outcome.agreement, Agreement::NotKnown);
        assert!(!outcome.agreement.may_send());
    }
}

/// The text stands in the scratch behind those of the records before it.
#[test]
fn replaced() {
    let list = "mailto:a@red.example.net,mailto:b@RED.example.net.";
    let record = texts(&["abc", &format!("v=DMARC1;rua= {list} ;p=none")]);
    let (asked, outcome, scratch) = run(start(POLICY, ENTRY), CONFIRMING, Answer::Records(&record));
    assert_eq!(asked, NAMES);
    let length = list.len();
    assert_eq!(outcome.agreement, Agreement::Replaced { begin: 17, length });
    assert!(outcome.agreement.may_send());
    assert_eq!(outcome.agreement.instead(&scratch), Some(list.as_bytes()));
    let (short, _) = scratch.split_at(16 + length);
    assert_eq!(outcome.agreement.instead(short), None);
}

fn refused<T>(number: u8) -> Result<T, Refusal> {
    Err(Refusal { number, place: 0 })
}

#[test]
fn refused_starts() {
    for policy in ["", ".", "a..b", "example.com.."] {
        assert_eq!(AddressCheck::start(policy, "x"), refused(11));
    }
    for entry in [
        "",
        "mailto:a@b,",
        "https://red.example.net",
        "mailto:red.example.net",
        "mailto:a@b@",
        "mailto:a@b!10m",
    ] {
        assert_eq!(AddressCheck::start(POLICY, entry), refused(23), "{entry}");
    }
    let Err(refusal) = AddressCheck::start(POLICY, "x") else {
        panic!("accepted");
    };
    assert_eq!(refusal.to_string(), "refused 23 at 0");
    assert_ne!(refusal.meaning(), "no number of a refusal");
}

#[test]
fn a_refused_call_leaves_the_check_as_it_was() {
    let mut check = AddressCheck::default();
    assert_eq!(check.next(), refused(7));
    assert_eq!(check.result(), refused(7));
    assert_eq!(check.start_over(POLICY, ENTRY), Ok(()));
    let mut scratch = [7; SCRATCH_OCTETS];
    let early = check.answer(NAMES[0], Answer::Error, &mut scratch);
    assert_eq!(early, refused(5));
    check.next().expect("a name");
    let before = check;
    assert_eq!(check.start_over("a..b", ENTRY), refused(11));
    assert_eq!(check.start_over(POLICY, "x"), refused(23));
    assert_eq!(check.result(), refused(7));
    let other = check.answer(NAMES[1], Answer::Error, &mut scratch);
    assert_eq!(other, refused(5));
    let short = check.answer(NAMES[0], Answer::NoRecords, &mut scratch[1..]);
    assert_eq!(short.map_err(|refusal| refusal.place), Err(SCRATCH_OCTETS));
    assert!(check == before && scratch == [7; SCRATCH_OCTETS]);
    assert_eq!(AddressCheck::from_raw(*check.raw()), check);
}

/// An answer that cannot be read leaves its name asked; as an error it is not known.
#[test]
fn refused_6_and_then_an_error() {
    let mut check = start(POLICY, ENTRY);
    let mut scratch = [7; SCRATCH_OCTETS];
    let step = check.next();
    let unreadable = check.answer(NAMES[0], Answer::Records(b"TX\0"), &mut scratch);
    assert_eq!(unreadable, refused(6));
    assert_eq!(check.next(), step);
    let answered = check.answer(NAMES[0], Answer::Error, &mut scratch);
    assert_eq!(answered, Ok(()));
    let outcome = AddressOutcome {
        agreement: Agreement::NotKnown,
        asked: 1,
    };
    assert_eq!(check.next(), Ok(AddressStep::Outcome(outcome)));
}

/// Checks that no call gave, of every place where one might stand.
fn made_up(length: u16) -> impl Iterator<Item = AddressCheck> {
    (0..=255).map(move |point_kind| {
        AddressCheck::from_raw(Check {
            started: 1,
            domains: [255; 506],
            numbers: [length; 2],
            point_kind,
            instead_begin: usize::MAX,
            instead_length: usize::MAX,
            ..Check::ZEROS
        })
    })
}

/// A name that is no text, and a place past every scratch.
#[test]
fn checks_that_no_call_gave() {
    let mut longest = 0;
    let mut replaced = 0;
    for mut check in made_up(253).chain(made_up(u16::MAX)) {
        match check.next().expect("it is started") {
            AddressStep::Ask(name) => {
                longest = longest.max(name.as_bytes().len());
                assert_eq!(name.as_str(), "");
            }
            AddressStep::Outcome(outcome) => {
                let instead = outcome.agreement.instead(&[7; SCRATCH_OCTETS]);
                assert_eq!(instead, None);
                let is_replaced = matches!(outcome.agreement, Agreement::Replaced { .. });
                replaced += usize::from(is_replaced);
            }
        }
    }
    assert_eq!(longest, CHECK_NAME_OCTETS);
    assert!(replaced > 0);
}
