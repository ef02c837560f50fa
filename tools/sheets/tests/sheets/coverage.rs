//! What the generated sheets must reach beside the verdicts: each shape of a
//! message, of its walks and answers, and each way in which a sheet is broken.

use std::collections::BTreeMap;

use crate::octets::run;
use evaluator::domain::{fault, without_dot};
use evaluator::grounds::Reason;
use evaluator::policy::{self, Psd};
use evaluator::sheet::{read, reasoned, Reasoned, Sheet};
use evaluator::txt::{records, Status};
use evaluator::walk::Walk;
use sheets::generate::{filled, hostile, ordinary};

const SHEETS: u64 = 4000;
const SEED: u64 = 41;

/// How often each feature was seen.
#[derive(Default)]
struct Seen {
    counts: BTreeMap<String, u64>,
}

impl Seen {
    fn note(&mut self, feature: impl Into<String>) {
        *self.counts.entry(feature.into()).or_default() += 1;
    }

    fn note_if(&mut self, holds: bool, feature: &str) {
        if holds {
            self.note(feature);
        }
    }

    fn needs(&self, feature: impl AsRef<str>) {
        let feature = feature.as_ref();
        let count = self.counts.get(feature).copied().unwrap_or(0);
        assert!(count >= 3, "{feature}: {count} of {:#?}", self.counts);
    }
}

/// How a walk went: its domain, how far it came, and what ended it.
fn note_walk(seen: &mut Seen, whose: &str, walk: &Walk) {
    let labels = walk.start.label_count();
    seen.note(format!("{whose} walk from {labels} labels"));
    seen.note(format!("{whose} walk of length {}", walk.looked));
    let octets = walk.start.octets().len();
    if octets > 240 {
        seen.note(format!("{whose} walk from {octets} octets"));
    }
    let last = walk.last().expect("a target");
    let ended_by = walk.found.iter().find(|found| found.domain == last);
    match ended_by.map(|found| found.settings.psd) {
        _ if walk.error => seen.note(format!("{whose} walk: error at {}", walk.looked)),
        Some(Psd::Yes) => seen.note(format!("{whose} walk: psd=y at {}", walk.looked)),
        Some(Psd::No) => seen.note(format!("{whose} walk: psd=n at {}", walk.looked)),
        Some(Psd::Unset) | None => {}
    }
}

fn note_message(seen: &mut Seen, reasoned: &Reasoned) {
    let walked: Vec<&Walk> = reasoned
        .grounds
        .reasons
        .iter()
        .flat_map(Reason::walk)
        .collect();
    note_walk(seen, "author's", &reasoned.grounds.author);
    for walk in &walked {
        note_walk(seen, "identifier's", walk);
        let same = walked.iter().filter(|other| other.start == walk.start);
        seen.note(format!("a domain walked for {} identifiers", same.count()));
    }
    let upper = |walk: &&Walk| walk.looked > 1 && walk.start == reasoned.message.author;
    assert!(
        !walked.iter().any(upper),
        "the author's domain is not walked again"
    );
}

/// The answers that the message asked for, and those that it did not.
fn note_answers(seen: &mut Seen, sheet: &Sheet, reasoned: &Reasoned) {
    for asked in &reasoned.names {
        let same = |name: &[u8]| without_dot(name).eq_ignore_ascii_case(&asked.name);
        let given = sheet.answers.iter().find(|given| same(given.name));
        let dotted = given.is_some_and(|given| given.name.ends_with(b"."));
        seen.note_if(dotted, "a final dot: asked");
        match given.map(|given| given.answer) {
            None => seen.note("asked: no answer on the sheet"),
            Some(answer) if answer.status == Status::Error => seen.note("asked: error"),
            Some(answer) if answer.status == Status::None => seen.note("asked: none"),
            Some(answer) if answer.bytes.is_empty() => seen.note("asked: zero bytes"),
            Some(answer) => note_records(seen, answer.bytes),
        }
    }
    let asked = |name: &[u8]| reasoned.names.iter().any(|asked| asked.name == name);
    for given in &sheet.answers {
        let name = without_dot(given.name).to_ascii_lowercase();
        seen.note_if(!asked(&name), "not asked");
        let dotted = given.name.ends_with(b".");
        seen.note_if(!asked(&name) && dotted, "a final dot: not asked");
        seen.note_if(given.name.len() > 253, "a final dot: a name of 253 octets");
    }
}

/// Final dots of the author and of identifiers.
fn note_dots(seen: &mut Seen, sheet: &Sheet) {
    let author = sheet.message.author;
    seen.note_if(author.ends_with(b"."), "a final dot: author");
    seen.note_if(author.len() > 253, "a final dot: an author of 253 octets");
    let identifiers = sheet.message.identifiers.iter();
    let mut domains = vec![author];
    domains.extend(identifiers.map(|identifier| identifier.domain));
    let dotted = |domain: &&&[u8]| domain.ends_with(b".");
    let identifier = domains.iter().skip(1).any(|domain| dotted(&domain));
    seen.note_if(identifier, "a final dot: identifier");
    // One domain in both spellings.
    let both = domains.iter().filter(dotted).any(|domain| {
        let plain = without_dot(domain);
        domains
            .iter()
            .any(|other| other.eq_ignore_ascii_case(plain))
    });
    seen.note_if(both, "a final dot: one domain in both spellings");
}

fn note_records(seen: &mut Seen, bytes: &[u8]) {
    let records = records(bytes).expect("readable records");
    let texts: Vec<Vec<u8>> = records.iter().map(|strings| strings.concat()).collect();
    let policies = texts
        .iter()
        .filter(|text| policy::read(text).is_some())
        .count();
    seen.note(format!("{} policy records at a name", policies.min(2)));
    seen.note_if(
        policies == 1 && texts.len() > 1,
        "a policy record among others",
    );
    seen.note_if(records.len() > 9, "ten records and more");
    if texts
        .iter()
        .any(|text| policy::repeated_name(text).is_some())
    {
        seen.note_if(policies == 1, "a tag twice beside one policy record");
        seen.note_if(policies == 2, "a tag twice beside two policy records");
    }
    for (text, strings) in texts.iter().zip(&records) {
        seen.note_if(strings.len() > 1, "a record of several strings");
        seen.note_if(strings.contains(&b"".as_slice()), "an empty string");
        seen.note_if(text.len() > 255, "a text over 255 octets");
        note_text(seen, text);
    }
}

fn note_text(seen: &mut Seen, text: &[u8]) {
    let Some(settings) = policy::read(text) else {
        return note_no_record(seen, text);
    };
    seen.note_if(text.contains(&b'\t'), "a tab in a policy record");
    seen.note_if(!text.is_ascii(), "an octet over 127 in a policy record");
    let rua = !policy::rua_text(text).is_empty();
    seen.note_if(
        rua && !settings.rua_valid,
        "a rua text without a valid entry",
    );
    let parts: Vec<Vec<u8>> = text.split(|octet| *octet == b';').map(name_of).collect();
    let twice =
        |name: &Vec<u8>| !name.is_empty() && parts.iter().filter(|o| *o == name).count() > 1;
    seen.note_if(
        parts.iter().any(twice),
        "a name twice in a policy record, but in an ill-formed part",
    );
}

fn note_no_record(seen: &mut Seen, text: &[u8]) {
    if let Some(name) = policy::repeated_name(text) {
        let name = name.to_ascii_lowercase();
        let kind = match name.as_slice() {
            b"v" => "v",
            b"p" | b"sp" | b"np" | b"adkim" | b"aspf" | b"psd" | b"t" | b"rua" => "a known tag",
            _ => "an unknown tag",
        };
        return seen.note(format!("{kind} twice"));
    }
    let lower = text.to_ascii_lowercase();
    let near = lower.windows(6).any(|part| part == b"dmarc1");
    seen.note_if(near, "nearly a policy record");
}

/// What stands before `=` in a part, in lower case.
fn name_of(part: &[u8]) -> Vec<u8> {
    let name = part
        .split(|octet| *octet == b'=')
        .next()
        .unwrap_or_default();
    name.trim_ascii().to_ascii_lowercase()
}

/// What the answers must have.
const FEATURES: &[&str] = &[
    "asked: no answer on the sheet",
    "asked: error",
    "asked: none",
    "asked: zero bytes",
    "not asked",
    "a policy record among others",
    "ten records and more",
    "a record of several strings",
    "an empty string",
    "a text over 255 octets",
    "nearly a policy record",
    "a tab in a policy record",
    "an octet over 127 in a policy record",
    "a rua text without a valid entry",
    "a name twice in a policy record, but in an ill-formed part",
    "v twice",
    "a known tag twice",
    "an unknown tag twice",
    "a tag twice beside one policy record",
    "a tag twice beside two policy records",
    "a final dot: author",
    "a final dot: an author of 253 octets",
    "a final dot: identifier",
    "a final dot: one domain in both spellings",
    "a final dot: asked",
    "a final dot: not asked",
    "a final dot: a name of 253 octets",
];

#[test]
fn messages_walks_and_answers() {
    let mut seen = Seen::default();
    for index in 0..SHEETS {
        let octets = ordinary(SEED, index);
        let reasoned = reasoned(&octets).expect("a verdict");
        note_message(&mut seen, &reasoned);
        let sheet = read(&octets).expect("a sheet");
        note_answers(&mut seen, &sheet, &reasoned);
        note_dots(&mut seen, &sheet);
    }
    for whose in ["author's", "identifier's"] {
        (1..=12).for_each(|n| seen.needs(format!("{whose} walk from {n} labels")));
        for length in 1..=8 {
            seen.needs(format!("{whose} walk of length {length}"));
            seen.needs(format!("{whose} walk: psd=y at {length}"));
            seen.needs(format!("{whose} walk: psd=n at {length}"));
            seen.needs(format!("{whose} walk: error at {length}"));
        }
        for octets in [245, 246, 247, 252, 253] {
            seen.needs(format!("{whose} walk from {octets} octets"));
        }
    }
    (1..=3).for_each(|n| seen.needs(format!("a domain walked for {n} identifiers")));
    (0..=2).for_each(|n| seen.needs(format!("{n} policy records at a name")));
    FEATURES.iter().for_each(|feature| seen.needs(feature));
}

/// Why the record at a place is broken, by readings 102 to 109.
fn cause(octets: &[u8], place: usize) -> &'static str {
    let rest = octets.get(place..).unwrap_or_default();
    let [first, second, high, low, body @ ..] = rest else {
        return match (octets.is_empty(), place == 65_536) {
            (true, _) => "107: an empty sheet",
            (_, true) => "102: over 65,536 octets",
            _ => "105: octets left over",
        };
    };
    if octets.len() > 65_536 && place == 65_536 {
        return "102: over 65,536 octets";
    }
    let length = 256 * usize::from(*high) + usize::from(*low);
    let Some(body) = body.get(..length) else {
        return "105: a body past the end";
    };
    match (&[*first, *second], place) {
        (b"AU", 0) => "103: AU too short",
        (b"ID" | b"AN", 0) => "107: AU not first",
        (b"AU", _) => "107: a second AU",
        (b"ID", _) if length < 2 => "103: ID too short",
        (b"ID", _) => "107: ID after AN",
        (b"AN", _) => answer_cause(body),
        _ => "107: another mark",
    }
}

fn answer_cause(body: &[u8]) -> &'static str {
    let [status, length, rest @ ..] = body else {
        return "103: AN too short";
    };
    let Some((name, bytes)) = rest.split_at_checked(usize::from(*length)) else {
        return "103: a name longer than its body";
    };
    match (fault(name), status) {
        (_, 3..) => "109: another status",
        (Some(_), _) if name == b"." => "135: a lone dot as a name",
        (Some(_), _) if ends_in_two(name) => "135: a name with two final dots",
        (Some(_), _) if name.is_empty() => "106: an empty name",
        (Some(253), _) => "106: a name over 253 octets",
        (Some(_), _) => "106: a bad label in a name",
        (None, 1 | 2) if !bytes.is_empty() => "104: octets after the name",
        (None, _) => "108: a second answer",
    }
}

/// Whether a text would be a domain but for its second final dot.
fn ends_in_two(text: &[u8]) -> bool {
    fault(text).is_some() && text.ends_with(b"..") && fault(without_dot(text)).is_none()
}

/// Whether the answer at a place is the second one of a name that the first
/// spells with a final dot and this one without, or the other way round.
fn answered_in_both_spellings(octets: &[u8], place: usize) -> bool {
    let rest = octets.get(place..).unwrap_or_default();
    let before = octets.get(..place).and_then(|octets| read(octets).ok());
    let ([b'A', b'N', _, _, _, length, name @ ..], Some(before)) = (rest, before) else {
        return false;
    };
    let Some(name) = name.get(..usize::from(*length)) else {
        return false;
    };
    let other = |given: &[u8]| {
        let same = without_dot(given).eq_ignore_ascii_case(without_dot(name));
        same && given.len() != name.len()
    };
    before.answers.iter().any(|given| other(given.name))
}

const CAUSES: &[&str] = &[
    "102: over 65,536 octets",
    "103: AU too short",
    "103: ID too short",
    "103: AN too short",
    "103: a name longer than its body",
    "104: octets after the name",
    "105: octets left over",
    "105: a body past the end",
    "106: an empty name",
    "106: a name over 253 octets",
    "106: a bad label in a name",
    "107: an empty sheet",
    "107: AU not first",
    "107: a second AU",
    "107: ID after AN",
    "107: another mark",
    "108: a second answer",
    "109: another status",
];

/// The author domain of a sheet that begins with an author.
fn author_of(octets: &[u8]) -> &[u8] {
    match octets {
        [b'A', b'U', high, low, _, _, rest @ ..] => {
            let length = 256 * usize::from(*high) + usize::from(*low);
            rest.get(..length.saturating_sub(2)).unwrap_or(rest)
        }
        _ => b"none",
    }
}

/// The refusal of a sheet, with what brought it about.
fn note_refusal(seen: &mut Seen, octets: &[u8]) {
    let sheet = read(octets);
    if let Ok(sheet) = &sheet {
        seen.note(format!("{} identifiers", sheet.message.identifiers.len()));
    }
    match reasoned(octets) {
        Ok(_) => seen.note_if(octets.len() > 60_000, "a verdict of a long sheet"),
        Err(refusal) if refusal.number == 8 => {
            seen.note(cause(octets, refusal.place));
            let bad = fault(author_of(octets)).is_some() && refusal.place > 0;
            seen.note_if(bad, "101: 8 where the author is bad too");
            let early = octets.len() > 65_536 && refusal.place < 65_536;
            seen.note_if(early, "102: broken before 65,536 octets");
            let both = answered_in_both_spellings(octets, refusal.place);
            seen.note_if(both, "136: a name answered in both spellings");
        }
        Err(refusal) if refusal.number == 1 && author_of(octets) == b"." => {
            seen.note("135: a lone dot as author");
        }
        Err(refusal) if refusal.number == 1 && ends_in_two(author_of(octets)) => {
            seen.note("135: an author with two final dots");
        }
        Err(refusal) if refusal.number == 2 => {
            seen.note(format!("{refusal}"));
            let at = sheet.ok().and_then(|sheet| {
                let identifiers = &sheet.message.identifiers;
                identifiers.get(refusal.place).map(|given| given.domain)
            });
            let domain = at.unwrap_or_default();
            seen.note_if(domain == b".", "135: a lone dot as identifier");
            seen.note_if(
                ends_in_two(domain),
                "135: an identifier with two final dots",
            );
        }
        Err(refusal) if refusal.number == 3 && refusal.place != 255 => seen.note("3 at an index"),
        Err(refusal) => seen.note(format!("{refusal}")),
    }
}

#[test]
fn broken_sheets_of_every_kind() {
    let mut seen = Seen::default();
    for index in 0..SHEETS {
        note_refusal(&mut seen, &hostile(SEED, index));
    }
    CAUSES.iter().for_each(|cause| seen.needs(cause));
    (0..=18).for_each(|n| seen.needs(format!("{n} identifiers")));
    for feature in [
        "101: 8 where the author is bad too",
        "102: broken before 65,536 octets",
        "135: a lone dot as author",
        "135: an author with two final dots",
        "135: a lone dot as identifier",
        "135: an identifier with two final dots",
        "135: a lone dot as a name",
        "135: a name with two final dots",
        "136: a name answered in both spellings",
        "a verdict of a long sheet",
        "refused 1 at 0",
        "refused 1 at 253",
        "refused 2 at 0",
        "refused 2 at 1",
        "refused 3 at 255",
        "3 at an index",
        "refused 4 at 1",
        "refused 4 at 16",
        "refused 6 at 0",
    ] {
        seen.needs(feature);
    }
}

#[test]
fn filled_sheets_have_their_length_and_end_by_it() {
    for index in 0..20 {
        let sheet = ordinary(SEED, index);
        let whole = filled(sheet.clone(), 65_536);
        assert_eq!(whole.len(), 65_536);
        assert_eq!(run(&whole), run(&sheet));
        for octets in [65_537, 70_000] {
            let over = filled(sheet.clone(), octets);
            assert_eq!(over.len(), octets);
            assert_eq!(run(&over), "refused 8 at 65536\n");
        }
    }
}
