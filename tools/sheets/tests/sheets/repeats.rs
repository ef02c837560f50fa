//! Generated sheets whose output rests on Ask 2 of document 02: one tag written
//! twice. The sheet without the later ones of such tags comes out differently.

use crate::octets::{an, au, id, run, tx};
use evaluator::sheet::read;
use evaluator::txt::{texts, Answer, Status};
use sheets::generate::SheetKind;

/// The name of a well-formed part, in lower case.
fn name_of(part: &[u8]) -> Option<Vec<u8>> {
    let blank = |octet: &u8| b" \t".contains(octet);
    let equals = part.iter().position(|octet| *octet == b'=')?;
    let (name, value) = (&part[..equals], &part[equals + 1..]);
    let inner = |octets: &[u8]| {
        let from = octets.iter().position(|octet| !blank(octet));
        let to = octets.iter().rposition(|octet| !blank(octet));
        Some(octets[from?..=to?].to_ascii_lowercase())
    };
    let (name, value) = (inner(name)?, inner(value)?);
    let well_formed = name.iter().all(u8::is_ascii_lowercase)
        && value.iter().all(|octet| (32..=126).contains(octet));
    well_formed.then_some(name)
}

/// A text without the well-formed parts whose name came before.
fn without_repeats(text: &[u8]) -> Vec<u8> {
    let mut names = Vec::new();
    let mut parts: Vec<&[u8]> = text.split(|octet| *octet == b';').collect();
    parts.retain(|part| {
        let name = name_of(part);
        let again = name.is_some() && names.contains(&name);
        names.push(name);
        !again
    });
    parts.join(&b';')
}

/// The bytes of an answer, its texts without repeats.
fn first_bytes(answer: Answer) -> Vec<u8> {
    let changed = |text: &Vec<u8>| without_repeats(text) != *text;
    match texts(answer.bytes) {
        Some(texts) if texts.iter().any(changed) => texts
            .iter()
            .flat_map(|text| {
                let text = without_repeats(text);
                tx(&text.chunks(255).collect::<Vec<_>>())
            })
            .collect(),
        _ => answer.bytes.to_vec(),
    }
}

/// The sheet with all its texts without repeats; nothing if it is broken.
fn first_of_each(octets: &[u8]) -> Option<Vec<u8>> {
    let sheet = read(octets).ok()?;
    let message = &sheet.message;
    let mut octets = au(message.existence, message.support, message.author);
    for given in &message.identifiers {
        octets.extend(id(given.kind, given.outcome, given.domain));
    }
    for given in &sheet.answers {
        let status = match given.answer.status {
            Status::Records => 0,
            Status::None => 1,
            Status::Error => 2,
        };
        octets.extend(an(status, given.name, &first_bytes(given.answer)));
    }
    Some(octets)
}

/// How many sheets of a kind and seed come out differently, their result,
/// policy or disposition.
fn resting(kind: SheetKind, seed: u64, count: u64) -> usize {
    let verdict = |octets: &[u8]| {
        let output = run(octets);
        let lines = output.lines().filter(|line| !line.starts_with("ask"));
        lines.map(String::from).collect::<Vec<_>>()
    };
    let sheets = (0..count).map(|index| kind.sheet(seed, index));
    sheets
        .filter(|sheet| first_of_each(sheet).is_some_and(|first| verdict(&first) != verdict(sheet)))
        .count()
}

#[test]
fn texts_without_repeats() {
    let table: [(&[u8], &[u8]); 4] = [
        (b"v=DMARC1; p=none; P=reject", b"v=DMARC1; p=none"),
        (b"v=DMARC1; v=x; x=1;x=1;", b"v=DMARC1; x=1;"),
        (b"v=DMARC1; sp=; sp=none; sp", b"v=DMARC1; sp=; sp=none; sp"),
        (
            b"v=DMARC1; p=none; p=\x80; p =x",
            b"v=DMARC1; p=none; p=\x80",
        ),
    ];
    for (text, without) in table {
        assert_eq!(without_repeats(text), without);
    }
}

#[test]
fn many_verdicts_rest_on_a_tag_written_twice() {
    for (kind, least) in [(SheetKind::Ordinary, 100), (SheetKind::Hostile, 40)] {
        let count = resting(kind, 1, 2000);
        assert!(count >= least, "{kind:?}: {count} of 2000");
    }
}
