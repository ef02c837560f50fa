//! Messages that are accepted, each with its answers.

use std::collections::HashMap;

use super::call::{AddCall, OpenCall};
use super::long::longer;
use crate::description;
use crate::examples::{Example, MARKED};
use crate::generate;
use evaluator::domain::{without_dot, Domain};
use evaluator::sheet;
use evaluator::txt::Status;

/// How many seeded messages there are, from sheets of at most so many octets.
const SEEDED: usize = 96;
const SEED: u64 = 9989;
const MOST_SHEET_OCTETS: usize = 1_100;

/// A message, and its answers.
#[derive(Clone, Debug)]
pub struct Plan {
    pub open: OpenCall,
    pub adds: Vec<AddCall>,
    answers: HashMap<Vec<u8>, (Status, Vec<u8>)>,
    /// How a name without an answer is answered.
    pub missing: Status,
}

impl Plan {
    /// The message and answers of a sheet, other names being answered by none.
    pub fn of_sheet(octets: &[u8]) -> Option<Plan> {
        let sheet = sheet::read(octets).ok()?;
        let mut answers = HashMap::new();
        for given in &sheet.answers {
            let said = (given.answer.status, given.answer.bytes.to_vec());
            let name = without_dot(given.name).to_ascii_lowercase();
            answers.insert(name, said);
        }
        let message = &sheet.message;
        let identifiers = message.identifiers.iter();
        Some(Plan {
            open: OpenCall {
                author: message.author.to_vec(),
                existence: message.existence,
                support: message.support,
            },
            adds: identifiers
                .map(|given| AddCall::new(given.kind, given.outcome, given.domain))
                .collect(),
            answers,
            missing: Status::None,
        })
    }

    fn of_description(text: &str) -> Option<Plan> {
        Plan::of_sheet(&description::make(text.as_bytes()).ok()?)
    }

    /// What is answered for a name.
    pub fn answer(&self, name: &[u8]) -> (Status, Vec<u8>) {
        let known = self.answers.get(name).cloned();
        known.unwrap_or((self.missing, Vec::new()))
    }
}

/// Messages that are accepted, or nothing if one cannot be written.
pub fn messages() -> Option<Vec<Plan>> {
    let mut texts: Vec<String> = MARKED.iter().map(Example::description).collect();
    texts.extend(DESCRIBED.iter().map(|text| text.to_string()));
    texts.extend(long_domains());
    texts.extend(errors_on_the_way());
    texts.extend(many_identifiers());
    let described = texts.iter().map(|text| Plan::of_description(text));
    let sheets = (0..).map(|index| generate::ordinary(SEED, index));
    let short = sheets.filter(|sheet| sheet.len() <= MOST_SHEET_OCTETS);
    let seeded = short.map(|sheet| Plan::of_sheet(&sheet));
    described.chain(seeded.take(SEEDED)).collect()
}

/// Descriptions, under the rule that they are there for.
const DESCRIBED: &[&str] = &[
    // Not usable for sp, and for np, with reports: the other tags stay.
    r#"author news.example.com exists supported
     spf fail mail.example.com
     dkim pass other.test
     answer _dmarc.example.com "v=DMARC1; p=reject; sp=often; adkim=s; rua=mailto:r@example.com""#,
    r#"author news.example.com exists supported
     dkim pass news.example.com
     answer _dmarc.example.com "v=DMARC1; p=reject; np=often""#,
    // Steps down: quarantine to none, none to none, and an unknown policy.
    r#"author News.Example.com exists supported
     spf temperror other.test
     answer _dmarc.example.com "v=DMARC1; p=reject; sp=quarantine; t=y""#,
    r#"author news.example.com missing supported
     dkim fail news.example.com
     answer _dmarc.example.com "v=DMARC1; p=reject; np=none; t=y""#,
    r#"author news.example.com unknown supported
     dkim fail news.example.com
     answer _dmarc.example.com "v=DMARC1; p=reject; np=none; t=y""#,
    // Existence not known: both agree, or the message passes all the same.
    r#"author news.example.com unknown unsupported
     dkim fail news.example.com
     answer _dmarc.example.com "v=DMARC1; p=none; sp=reject; np=reject""#,
    r#"author news.example.com unknown supported
     dkim pass NEWS.example.com
     answer _dmarc.example.com "v=DMARC1; p=reject; np=none""#,
    // Two records at one name are none, and the record above applies.
    r#"author news.example.com exists supported
     dkim pass a.news.example.com
     spf pass example.com
     answer _dmarc.news.example.com "v=DMARC1; p=none"
     answer _dmarc.news.example.com "v=DMARC1; p=none"
     answer _dmarc.example.com "more"
     answer _dmarc.example.com "v=DM" "ARC1; p=" "" "reject"
     answer _dmarc.example.com "v=spf1 -all""#,
    // psd=n below a record ends the walk; psd=u goes on.
    r#"author a.b.example.co.uk exists supported
     dkim pass c.b.example.co.uk
     dkim pass example.co.uk
     answer _dmarc.b.example.co.uk "v=DMARC1; p=quarantine; psd=n"
     answer _dmarc.example.co.uk "v=DMARC1; p=reject; psd=u""#,
    r#"author a.b.example.co.uk missing unsupported
     dkim pass c.b.example.co.uk
     dkim pass example.co.uk
     answer _dmarc.b.example.co.uk "v=DMARC1; p=quarantine"
     answer _dmarc.example.co.uk "v=DMARC1; p=reject; psd=u; np=quarantine"
     answer _dmarc.co.uk "v=DMARC1; p=none; psd=y""#,
    // The organizational domain has no record: the psd=y one applies.
    r#"author a.b.example.co.uk exists supported
     dkim pass x.example.co.uk
     answer _dmarc.b.example.co.uk "v=DMARC1; p=none"
     answer _dmarc.co.uk "v=DMARC1; p=none; sp=reject; psd=Y""#,
    // psd=y at the start, of the author and of an identifier.
    r#"author co.uk exists supported
     dkim pass example.co.uk
     dkim pass uk
     answer _dmarc.co.uk "v=DMARC1; p=reject; psd=y"
     answer _dmarc.uk "v=DMARC1; p=none""#,
    r#"author uk exists supported
     dkim pass co.uk
     answer _dmarc.uk "v=DMARC1; p=reject; psd=n""#,
    // Equal domains are one walk, whatever their case and kind.
    r#"author example.com exists supported
     dkim pass A.other.test
     spf pass a.other.test
     dkim pass a.OTHER.test
     dkim fail a.other.test
     dkim temperror a.other.test
     answer _dmarc.example.com "v=DMARC1; p=reject""#,
    // One mode strict, the other relaxed, each way.
    r#"author example.com exists supported
     dkim pass mail.example.com
     spf pass mail.example.com
     answer _dmarc.example.com "v=DMARC1; p=reject; adkim=s""#,
    r#"author example.com exists supported
     dkim pass mail.example.com
     spf pass mail.example.com
     answer _dmarc.example.com "v=DMARC1; p=reject; aspf=S""#,
    r#"author example.com exists supported
     dkim pass mail.example.com
     spf pass mail.example.com
     answer _dmarc.example.com "v=DMARC1; p=reject; adkim=s; aspf=s""#,
    // An error in one identifier's walk beside one that is aligned.
    r#"author example.com exists supported
     dkim pass mail.other.test
     spf pass mail.example.com
     answer _dmarc.example.com "v=DMARC1; p=reject"
     answer _dmarc.other.test error"#,
    r#"author example.com exists supported
     dkim pass mail.other.test
     spf fail mail.example.com
     answer _dmarc.example.com "v=DMARC1; p=reject"
     answer _dmarc.other.test error"#,
    // The author's walk ends in an error after its own record.
    r#"author example.com exists supported
     dkim pass mail.example.com
     spf pass example.com
     answer _dmarc.example.com "v=DMARC1; p=reject"
     answer _dmarc.com error"#,
    r#"author example.com exists supported
     dkim pass mail.example.com
     spf fail example.com
     answer _dmarc.example.com "v=DMARC1; p=reject"
     answer _dmarc.com error"#,
    // A name of zero bytes, one of junk, a record in upper case letters.
    r#"author a.example.com exists supported
     spf pass b.example.com
     answer _dmarc.a.example.com hex
     answer _dmarc.example.com "junk"
     answer _dmarc.example.com "V = DMARC1 ;P=NONE; ADKIM=S"
     answer _dmarc.com """#,
    // 12 labels: the target after the domain has 7.
    r#"author a.b.c.d.e.f.g.h.i.j.example.com exists supported
     dkim pass z.e.f.g.h.i.j.example.com
     dkim pass k.l.m.n.o.p.f.g.h.i.j.example.com
     answer _dmarc.f.g.h.i.j.example.com "v=DMARC1; p=reject; sp=none""#,
    // The author's names are a part of an identifier's walk, and the other way round.
    r#"author b.example.com exists supported
     dkim pass c.a.b.example.com
     dkim pass com
     dkim pass example.com
     answer _dmarc.b.example.com "v=DMARC1; p=quarantine""#,
    // A text with a tag twice is dropped: the one beside it applies, or the walk goes on.
    r#"author twice.example.com exists supported
     dkim pass mail.example.com
     answer _dmarc.twice.example.com "v=DMARC1; p=none; p=reject"
     answer _dmarc.twice.example.com "v=DMARC1; p=quarantine; sp=; sp=none"
     answer _dmarc.example.com "v=DMARC1; p=reject""#,
    r#"author twice.example.com exists supported
     spf pass mail.example.com
     answer _dmarc.twice.example.com "v=DMARC1; p=none; v=DMARC1"
     answer _dmarc.mail.example.com "v=DMARC1; p=none; psd=n; PSD=n"
     answer _dmarc.example.com "v=DMARC1; p=none; fo=1; rua=a:b; Fo=1"
     answer _dmarc.com "v=DMARC1; p=reject; psd=u""#,
    // Final dots: one name in two spellings, one walk for two domains, a domain of
    // 253 octets.
    r#"author Example.com. exists supported
     spf pass example.com
     dkim pass mail.example.com.
     dkim pass Mail.Example.com
     answer _dmarc.example.com. "v=DMARC1; p=reject; aspf=s"
     answer _dmarc.mail.example.com. "v=DMARC1; p=none; psd=n""#,
    r#"author news.example.com exists supported
     spf pass mail.example.org.
     dkim pass MAIL.example.org
     answer _dmarc.example.com "v=DMARC1; p=reject; sp=quarantine"
     answer _dmarc.org. error"#,
    // Labels of odd octets.
    r#"author -.9._s.x-1 exists supported
     dkim pass _.-.9._S.X-1
     answer _dmarc._s.x-1 "v=DMARC1; p=reject""#,
];

/// A record at a domain, as a line.
fn record_line(domain: &str, tags: &str) -> String {
    format!("answer _dmarc.{domain} \"v=DMARC1; {tags}\"\n")
}

/// Domains near 253 octets: "A target over 246 octets is not asked".
fn long_domains() -> Vec<String> {
    let mut texts = Vec::new();
    for octets in [245, 246, 247, 252, 253] {
        let author = longer("example.com", octets);
        let record = record_line("example.com", "p=reject");
        texts.push(format!(
            "author {author} exists supported\ndkim pass example.com\n{record}"
        ));
    }
    // A record at the longest name that can be asked.
    let longest = longer("example.com", 246);
    let record = record_line(&longest, "p=quarantine; adkim=s");
    texts.push(format!(
        "author {longest} exists supported\ndkim pass {longest}\n{record}"
    ));
    // An identifier too long to be asked, of the author's organization.
    let own = longer("Example.com", 253);
    let record = record_line("example.com", "p=reject");
    texts.push(format!(
        "author example.com exists supported\ndkim pass {own}\ndkim pass {own}\n{record}"
    ));
    // A final dot after as many octets as a domain may have.
    let record = record_line("example.com", "p=reject");
    texts.push(format!(
        "author {own}. exists supported\ndkim pass {longest}.\ndkim pass {own}\n{record}"
    ));
    // As many labels as there can be, without a record.
    let labels = vec!["a"; 127].join(".");
    texts.push(format!(
        "author {labels} missing supported\ndkim pass {labels}\n"
    ));
    let record = record_line("a.a.a.a.a.a.a", "p=reject; np=quarantine");
    texts.push(format!(
        "author {labels} missing supported\ndkim pass b.{}\n{record}",
        labels.split_at(2).1
    ));
    texts
}

/// The names that a walk from a domain asks.
fn names(domain: &str) -> Vec<String> {
    let targets = Domain::read(domain.as_bytes()).map_or(Vec::new(), |read| read.walk_targets());
    let names = targets.iter().filter_map(Domain::asked_name);
    names
        .map(|name| String::from_utf8_lossy(&name).into_owned())
        .collect()
}

/// An error at each place of the author's walk, and of an identifier's.
fn errors_on_the_way() -> Vec<String> {
    let mut texts = Vec::new();
    let author = "a.b.example.com";
    for name in names(author) {
        let record = match name.as_str() {
            "_dmarc.example.com" => String::new(),
            _ => record_line("example.com", "p=reject"),
        };
        texts.push(format!(
            "author {author} exists supported\ndkim pass c.example.com\n{record}answer {name} error\n"
        ));
    }
    let walked = "1.2.3.4.5.6.7.8.9";
    for name in names(walked) {
        let record = record_line("example.com", "p=none");
        texts.push(format!(
            "author example.com exists supported\nspf pass {walked}\n{record}answer {name} error\n"
        ));
    }
    texts
}

/// 16 identifiers: each with its own walk of eight names, so that 136 names are
/// asked; all of one domain; of every outcome.
fn many_identifiers() -> Vec<String> {
    let wide = |kind: &str, number: usize| format!("{kind} pass a.b.c.d.e.f.g.t{number}\n");
    let mut own_walks = "author a.b.c.d.e.f.g.t exists supported\n".to_string();
    let mut one_walk = "author a.b.c.d.e.f.g.h.t missing unsupported\n".to_string();
    let mut outcomes = "author example.com exists supported\n".to_string();
    for number in 0..16 {
        let kind = if number == 9 { "spf" } else { "dkim" };
        own_walks.push_str(&wide(kind, number));
        one_walk.push_str(&wide(kind, 0));
        let outcome = ["fail", "pass", "temperror"][number % 3];
        outcomes.push_str(&format!("{kind} {outcome} d{}.example.com\n", number / 6));
    }
    own_walks.push_str(&record_line("a.b.c.d.e.f.g.t", "p=reject"));
    one_walk.push_str(&record_line("t", "p=none; np=reject"));
    one_walk.push_str(&record_line("g.t0", "p=none; psd=u"));
    outcomes.push_str(&record_line("example.com", "p=reject"));
    outcomes.push_str(&record_line("d1.example.com", "p=reject; psd=n"));
    vec![own_walks, one_walk, outcomes]
}
