//! Broken and odd sheets, by the readings that they are there for.

use crate::written::{answer_bytes, text_answer, Record};
use evaluator::txt::MOST_RECORDS;

/// E of document 01's marked sheets.
const E: &[u8] = b"v=DMARC1; p=reject; sp=quarantine; np=reject; aspf=s";

/// A sheet under way. All its parts are short enough for their lengths.
#[derive(Clone)]
struct Written {
    octets: Vec<u8>,
}

/// A sheet of an author that exists, with support.
fn author(domain: &[u8]) -> Written {
    raw(b"").au(1, 1, domain)
}

/// A sheet of these octets.
fn raw(octets: &[u8]) -> Written {
    Written {
        octets: octets.to_vec(),
    }
}

impl Written {
    fn push(mut self, record: Record) -> Written {
        let _ = record.push(&mut self.octets);
        self
    }

    fn record(self, mark: &[u8; 2], body: &[u8]) -> Written {
        self.push(Record::new(mark, body))
    }

    fn au(self, existence: u8, support: u8, domain: &[u8]) -> Written {
        self.push(Record::author(existence, support, domain))
    }

    fn id(self, kind: u8, outcome: u8, domain: &[u8]) -> Written {
        self.push(Record::identifier(kind, outcome, domain))
    }

    /// So many DKIM passes of one domain.
    fn dkim(self, count: usize, domain: &[u8]) -> Written {
        (0..count).fold(self, |sheet, _| sheet.id(1, 1, domain))
    }

    fn an(self, status: u8, name: &[u8], bytes: &[u8]) -> Written {
        self.push(Record::answer(status, name, bytes))
    }

    fn none(self, name: &[u8]) -> Written {
        self.an(1, name, b"")
    }

    fn text(self, name: &[u8], text: &[u8]) -> Written {
        self.an(0, name, &text_answer(text).unwrap_or_default())
    }

    /// Octets after the last record.
    fn left(mut self, octets: &[u8]) -> Written {
        self.octets.extend(octets);
        self
    }
}

/// All broken and odd sheets, by name.
pub fn sheets() -> Vec<(&'static str, Vec<u8>)> {
    let tables = [
        broken_first(),
        short_bodies(),
        octets_left_over(),
        answer_names(),
        marks_and_order(),
        second_answers(),
        numbers(),
        messages(),
        answers(),
        unanswered(),
        repeated_tags(),
        final_dots(),
    ];
    let sheets = tables.into_iter().flatten();
    sheets.map(|(name, sheet)| (name, sheet.octets)).collect()
}

type Table = Vec<(&'static str, Written)>;

/// Reading 101.
fn broken_first() -> Table {
    let bad = raw(b"").au(1, 1, b"a..b").id(1, 9, b"x").none(b"a");
    let twice = author(b"example.com").none(b"a").none(b"A");
    vec![
        (
            "101: 8 before 1 and 3, whatever follows",
            bad.clone().record(b"XX", b"").record(b"AU", b""),
        ),
        ("101: 1 before 3", bad),
        (
            "101: a second answer before another mark",
            twice.record(b"XX", b""),
        ),
        (
            "101: another mark before a second answer",
            author(b"example.com")
                .none(b"a")
                .record(b"XX", b"")
                .none(b"a"),
        ),
    ]
}

/// Reading 103.
fn short_bodies() -> Table {
    let own = || author(b"example.com");
    vec![
        ("103: AU of two octets", raw(b"").record(b"AU", b"\x01\x01")),
        ("103: AU of one octet", raw(b"").record(b"AU", b"\x01")),
        ("103: ID of two octets", own().record(b"ID", b"\x01\x01")),
        ("103: ID of one octet", own().record(b"ID", b"\x01")),
        ("103: AN of one octet", own().record(b"AN", b"\x01")),
        (
            "103: AN whose name is longer than its body",
            own().record(b"AN", b"\x01\x04com"),
        ),
    ]
}

/// Readings 104 and 105.
fn octets_left_over() -> Table {
    let own = || author(b"example.com");
    vec![
        ("104: none with an octet after", own().an(1, b"com", b"x")),
        ("104: error with an octet after", own().an(2, b"com", b"x")),
        ("105: one octet left over", own().left(b"A")),
        ("105: three octets left over", own().left(b"AN\0")),
        (
            "105: a body past the end",
            own().left(b"AN\0\x06\x01\x03com"),
        ),
        (
            "105: the author's body past the end",
            raw(b"AU\xff\xff\x01\x01a"),
        ),
    ]
}

/// A name of three labels of 63 octets and a last one of so many.
fn long_name(last: usize) -> Vec<u8> {
    let label = [b'x'; 63].as_slice();
    [label, label, label, vec![b'y'; last].as_slice()].join(&b'.')
}

/// Reading 106.
fn answer_names() -> Table {
    let own = || author(b"example.com");
    vec![
        ("106: a name of no octets", own().none(b"")),
        ("106: a name of 253 octets", own().none(&long_name(61))),
        ("106: a name of 254 octets", own().none(&long_name(62))),
        (
            "106: a name with an empty label",
            own().none(b"_dmarc..com"),
        ),
        ("106: a name with a blank", own().none(b"_dmarc.a b")),
        (
            "106: a name without _dmarc. is not asked",
            own().text(b"example.com", E),
        ),
    ]
}

/// Reading 107, and the empty sheet.
fn marks_and_order() -> Table {
    let own = || author(b"example.com");
    vec![
        ("107: an empty sheet", raw(b"")),
        ("107: ID first", raw(b"").id(1, 1, b"a").au(1, 1, b"a")),
        ("107: AN alone", raw(b"").none(b"_dmarc.example.com")),
        ("107: a second AU", own().au(1, 1, b"example.com")),
        ("107: ID after AN", own().none(b"a").id(1, 1, b"a")),
        ("107: mark au", raw(b"").record(b"au", b"\x01\x01a")),
        ("107: mark TX", own().record(b"TX", b"\x01a")),
    ]
}

/// Reading 108.
fn second_answers() -> Table {
    let answered = || author(b"example.com").text(b"_dmarc.example.com", E);
    vec![
        (
            "108: the same answer again",
            answered().text(b"_dmarc.example.com", E),
        ),
        (
            "108: another answer, in the other case",
            answered().none(b"_DMARC.Example.COM"),
        ),
        (
            "108: a second answer that is not asked",
            answered().none(b"a.b").none(b"c").none(b"A.B"),
        ),
    ]
}

/// Reading 109.
fn numbers() -> Table {
    let own = || author(b"example.com");
    vec![
        ("109: existence 3", raw(b"").au(3, 1, b"example.com")),
        ("109: support 2", raw(b"").au(1, 2, b"example.com")),
        (
            "109: existence and support in ASCII",
            raw(b"").au(49, 49, b"a"),
        ),
        ("109: kind 2", own().dkim(1, b"a").id(2, 1, b"a")),
        ("109: outcome 3", own().id(1, 3, b"a")),
        ("109: status 3", own().an(3, b"com", b"")),
    ]
}

/// Reading 110.
fn messages() -> Table {
    let own = || author(b"example.com");
    let two_spf = own().dkim(1, b"a").id(0, 0, b"a").id(0, 1, b"a..b");
    vec![
        (
            "110: 16 identifiers",
            own()
                .dkim(16, b"example.com")
                .text(b"_dmarc.example.com", E),
        ),
        ("110: 17 identifiers", own().dkim(17, b"example.com")),
        (
            "110: the 17th of kind 7",
            own().dkim(16, b"a").id(7, 1, b"a"),
        ),
        ("110: a second SPF, with a bad domain", two_spf),
        ("110: an author with a bad label", author(b"ok.a b.com")),
        ("110: an author of 254 octets", author(&long_name(62))),
        (
            "110: an identifier with a bad label",
            own().dkim(1, b"a").id(1, 0, b"a..b"),
        ),
    ]
}

/// An answer of one record with a text of so many octets, over 15 strings.
fn long_answer(text: usize) -> Vec<u8> {
    text_answer(&vec![b'f'; text]).unwrap_or_default()
}

/// Readings 111 and 112.
fn answers() -> Table {
    let news = || author(b"news.example.com");
    let own: &[u8] = b"_dmarc.news.example.com";
    let many = answer_bytes(&vec![vec![b"a".as_slice()]; MOST_RECORDS + 1]);
    vec![
        (
            "111: an unreadable answer, asked second",
            news().none(own).an(0, b"_dmarc.example.com", b"TX\0\0"),
        ),
        (
            "111: an unreadable answer that is not asked",
            news()
                .text(own, b"v=DMARC1; p=none")
                .an(0, b"_dmarc.com", b"TX\0\0"),
        ),
        (
            "111: 17 records",
            news().an(0, own, &many.unwrap_or_default()),
        ),
        (
            "111: an answer of 4,096 octets",
            author(b"com").an(0, b"_dmarc.com", &long_answer(4_076)),
        ),
        (
            "111: an answer of 4,097 octets",
            author(b"com").an(0, b"_dmarc.com", &long_answer(4_077)),
        ),
        (
            "111: 4 before 6",
            news().id(0, 1, b"a").id(0, 1, b"b").an(0, own, b"x"),
        ),
        (
            "112: records of zero bytes are none",
            author(b"com").an(0, b"_dmarc.com", b""),
        ),
    ]
}

/// Reading 113.
fn unanswered() -> Table {
    vec![
        ("113: a sheet of AU alone", author(b"example.com")),
        (
            "113: the second name has no answer",
            author(b"example.com").none(b"_dmarc.example.com"),
        ),
        (
            "113: an identifier's name has no answer",
            author(b"com")
                .dkim(1, b"net")
                .text(b"_dmarc.com", b"v=DMARC1; p=reject"),
        ),
    ]
}

/// Reading 126.
fn repeated_tags() -> Table {
    let own: &[u8] = b"_dmarc.example.com";
    let at = |text: &[u8]| author(b"example.com").text(own, text).none(b"_dmarc.com");
    let twice: &[u8] = b"v=DMARC1; p=none; p=reject";
    let beside = answer_bytes(&[vec![twice], vec![b"v=DMARC1; p=reject".as_slice()]]);
    vec![
        ("126: p twice", at(twice)),
        (
            "126: p twice beside one record",
            author(b"example.com").an(0, own, &beside.unwrap_or_default()),
        ),
        ("126: v again", at(b"v=DMARC1; p=reject; v=DMARC1")),
        (
            "126: an unknown name again, in the other case",
            at(b"v=DMARC1; x=1; p=reject; X=1"),
        ),
        (
            "126: sp again, but without a value",
            at(b"v=DMARC1; sp=; p=reject; sp=none"),
        ),
        ("126: rua twice", at(b"v=DMARC1; p=often; rua=a:b; rua=a:b")),
        (
            "126: psd=y twice ends no walk",
            author(b"a.example.com")
                .none(b"_dmarc.a.example.com")
                .text(own, b"v=DMARC1; p=none; psd=y; psd=y")
                .none(b"_dmarc.com"),
        ),
    ]
}

/// Readings 134 to 136.
fn final_dots() -> Table {
    let own = || author(b"example.com.");
    let dotted: &[u8] = b"_dmarc.example.com.";
    let plain: &[u8] = b"_dmarc.example.com";
    let after = |mut name: Vec<u8>, dots: &[u8]| {
        name.extend(dots);
        name
    };
    vec![
        (
            "134: a final dot in every place",
            own()
                .id(0, 1, b"mail.example.com.")
                .dkim(1, b"mail.Example.com")
                .text(b"_DMARC.example.com.", E)
                .none(b"_dmarc.com.")
                .none(b"_dmarc.mail.example.com."),
        ),
        ("135: a lone dot as author", author(b".")),
        ("135: two dots as author", author(b"..")),
        ("135: an author with two final dots", author(b"a..")),
        (
            "135: an author with a bad label and a final dot",
            author(b"ok.a b.com."),
        ),
        (
            "135: an author of 253 octets and a final dot",
            author(&after(long_name(61), b".")).text(b"_dmarc.x", E),
        ),
        (
            "135: an author of 254 octets and a final dot",
            author(&after(long_name(62), b".")),
        ),
        (
            "135: an author of 253 octets and two final dots",
            author(&after(long_name(61), b"..")),
        ),
        (
            "135: a lone dot as identifier",
            own().dkim(1, b"a.").id(1, 0, b"."),
        ),
        (
            "135: an identifier with two final dots",
            own().dkim(2, b"a.").id(0, 2, b"a.b.."),
        ),
        ("135: a lone dot as a name", own().none(b".")),
        ("135: a name with two final dots", own().none(b"a..")),
        (
            "135: a name of 253 octets and a final dot",
            own().none(&after(long_name(61), b".")).text(plain, E),
        ),
        (
            "135: a name of 254 octets and a final dot",
            own().none(&after(long_name(62), b".")),
        ),
        (
            "136: an answer with a final dot",
            author(b"example.com").text(dotted, E),
        ),
        (
            "136: both spellings answered",
            own().text(plain, E).text(dotted, E),
        ),
        (
            "136: both spellings answered, the other way round",
            own().text(dotted, E).none(b"_DMARC.Example.com"),
        ),
        (
            "136: both spellings answered and not asked",
            own().none(b"A.b").none(b"a.B."),
        ),
        (
            "136: two spellings are one walk",
            own()
                .dkim(1, b"a.other.test.")
                .dkim(1, b"A.other.test")
                .text(dotted, b"v=DMARC1; p=reject")
                .none(b"_dmarc.com")
                .none(b"_dmarc.a.other.test.")
                .none(b"_dmarc.other.test")
                .none(b"_dmarc.test."),
        ),
        (
            "136: labels are counted without the dot",
            author(b"a.b.c.d.e.f.g.h.test."),
        ),
    ]
}
