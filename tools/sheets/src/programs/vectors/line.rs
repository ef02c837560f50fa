//! The line of a case, by the second evaluator.

use std::borrow::Cow;

use super::case::{AnswerCase, Case, FieldCase, NameCase};
use crate::programs::lent::{sums, used, written_words, FILL};
use crate::written::hex;
use evaluator::book::Book;
use evaluator::domain::label_pass;
use evaluator::policy::{self, Mode, Psd, Request, Settings};
use evaluator::refusal::Refusal;
use evaluator::report;
use evaluator::txt::{self, Answer, Reply};

/// How many octets of the scratch a line shows.
const SHOWN_SCRATCH: usize = 40;

const AUTHOR: &[u8] = b"example.com";
const ASKED: &[u8] = b"_dmarc.example.com";
/// An answer with which the verdict follows at once.
const OWN_RECORD: &[u8] = b"TX\0\x13\x12v=DMARC1; p=reject";

/// The line, without its end.
pub fn line(case: &Case) -> String {
    match case {
        Case::Policy(text) => policy_line(text),
        Case::Answer(given) => answer_line(given),
        Case::FileName(given) => name_line(given),
        Case::Field(given) => field_line(given),
        Case::Labels(domain) => labels_line(domain),
    }
}

fn policy_line(text: &[u8]) -> String {
    let words = match policy::read(text) {
        Some(settings) => settings_words(&settings),
        None => "none".to_string(),
    };
    let rua = policy::rua_text(text);
    format!("policy {words} rua={}:{}", rua.len(), ascii(rua))
}

fn answer_line(given: &AnswerCase) -> String {
    let answer = Answer {
        status: given.status,
        bytes: &given.bytes,
    };
    let mut scratch = vec![FILL; usize::from(given.scratch)];
    let taken = asking(&[]).and_then(|mut book| book.answer(ASKED, answer, &mut scratch));
    let words = match taken {
        Ok(()) => reply_words(txt::reply(answer)),
        Err(refusal) => refusal.to_string(),
    };
    let used = used(&scratch);
    let shown = used.get(..SHOWN_SCRATCH).unwrap_or(used);
    format!("answer {words} scratch={}:{}", sums(&scratch), hex(shown))
}

fn name_line(given: &NameCase) -> String {
    let mut out = vec![FILL; usize::from(given.size)];
    let words = written_words(report::file_name(&given.parts(), &mut out));
    format!("file {words} out={}:{}", sums(&out), ascii(used(&out)))
}

fn field_line(given: &FieldCase) -> String {
    let mut out = vec![FILL; usize::from(given.size)];
    let words = written_words(field(given, &mut out));
    format!("field {words} out={}:{}", sums(&out), hex(used(&out)))
}

fn labels_line(domain: &[u8]) -> String {
    let pass = label_pass(domain);
    let begins = pass.begins.map(|begin| begin.to_string()).join(",");
    format!(
        "labels={} rounds={} begins={begins}",
        pass.labels, pass.rounds
    )
}

/// The field of a message with these identifiers, asked for at its verdict.
fn field(given: &FieldCase, out: &mut [u8]) -> Result<usize, Refusal> {
    let mut book = asking(&given.identifiers())?;
    book.answer(ASKED, Answer::records(OWN_RECORD), &mut [0; 4096])?;
    book.field(out)
}

/// A book that now asks `_dmarc.example.com`, with identifiers of the author's
/// own domain, of these kinds and outcomes.
fn asking(identifiers: &[(u8, u8)]) -> Result<Book, Refusal> {
    let mut book = Book::default();
    book.open(AUTHOR, 1, 1)?;
    for (kind, outcome) in identifiers {
        book.add(*kind, *outcome, AUTHOR)?;
    }
    book.next_step()?;
    Ok(book)
}

fn reply_words(reply: Reply) -> String {
    match reply {
        Reply::Record(settings) => format!("record {}", settings_words(&settings)),
        Reply::NoRecord => "none".to_string(),
        Reply::Error => "error".to_string(),
    }
}

fn settings_words(settings: &Settings) -> String {
    format!(
        "p={} sp={} np={} adkim={} aspf={} psd={} t={} reports={}",
        request_word(settings.p),
        request_word(settings.sp),
        request_word(settings.np),
        mode_word(settings.adkim),
        mode_word(settings.aspf),
        psd_word(settings.psd),
        if settings.testing { "y" } else { "n" },
        if settings.rua_valid { "yes" } else { "no" },
    )
}

fn request_word(request: Request) -> &'static str {
    match request {
        Request::Absent => "absent",
        Request::Invalid => "invalid",
        Request::Valid(policy) => policy.word(),
    }
}

fn mode_word(mode: Mode) -> &'static str {
    match mode {
        Mode::Relaxed => "r",
        Mode::Strict => "s",
    }
}

fn psd_word(psd: Psd) -> &'static str {
    match psd {
        Psd::Yes => "y",
        Psd::No => "n",
        Psd::Unset => "u",
    }
}

/// A text whose octets are all from 32 to 126, as it stands.
fn ascii(octets: &[u8]) -> Cow<'_, str> {
    String::from_utf8_lossy(octets)
}
