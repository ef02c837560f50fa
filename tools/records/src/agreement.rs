//! The code and the second evaluator on one record.

use crate::code::{accepted, numbers, settings, Code, RecordNumbers, RecordRead};
use crate::words::two;
use evaluator::policy::{self, Settings};
use evaluator::publishing::{write_record, MOST_RUA_OCTETS};
use evaluator::refusal::Refusal;
use sheets::description::quoted;

/// More octets than any record has: its rua text, and what stands beside that.
pub const ROOM: usize = MOST_RUA_OCTETS + 200;
/// Octets behind the lent memory, which nobody may write.
const BEHIND: usize = 16;

/// Settings and a rua text to be written, and how many octets are lent.
#[derive(Clone, Debug, PartialEq, Eq)]
pub struct Writing<'a> {
    pub numbers: RecordNumbers,
    pub rua: &'a [u8],
    pub lent: usize,
}

/// A policy record as it was read.
#[derive(Clone, Copy, Debug, PartialEq, Eq)]
pub struct Reading<'a> {
    pub settings: Settings,
    pub rua: &'a [u8],
}

/// A refusal, or the record that was written.
pub type Written = Result<Vec<u8>, Refusal>;

/// What both write; the error says how they differ.
pub fn write(code: &impl Code, writing: &Writing) -> Result<Written, String> {
    let pattern: Vec<u8> = (1..=251).cycle().take(writing.lent + BEHIND).collect();
    let mut expected_out = pattern.clone();
    let lent = expected_out.get_mut(..writing.lent).unwrap_or_default();
    let expected = write_record(&settings(writing.numbers, false), writing.rua, lent);
    let mut out = pattern;
    let lent = out.get_mut(..writing.lent).unwrap_or_default();
    let written = code.write(writing.numbers, writing.rua, lent);
    let given = accepted(written.refusal).map(|()| written.length);
    let differ = |what: &str, given: String, expected: String| {
        let case = shown(writing);
        Err(two(what, &given, &expected) + &format!("\n-- to be written\n{case}"))
    };
    if given != expected {
        return differ("the answers differ", said(given), said(expected));
    }
    if given.is_err() && written.length != 0 {
        let length = written.length.to_string();
        return differ("a length where it is refused", length, "0".to_string());
    }
    if out != expected_out {
        let given = quoted(&out);
        return differ("the lent memory differs", given, quoted(&expected_out));
    }
    let record = |length| out.get(..length).unwrap_or_default().to_vec();
    Ok(given.map(record))
}

/// What both read; nothing if the text is no policy record, and the error says
/// how they differ.
pub fn read<'a>(code: &impl Code, text: &'a [u8]) -> Result<Option<Reading<'a>>, String> {
    let expected = policy::read(text);
    let (given, named) = (code.read(text), expected_numbers(text, expected));
    if given != named {
        let differ = two("the readings differ", &listed(&given), &listed(&named));
        return Err(format!("{differ}\n-- the text\n{}", quoted(text)));
    }
    let rua = policy::rua_text(text);
    Ok(expected.map(|settings| Reading { settings, rua }))
}

/// The second evaluator's reading in numbers.
fn expected_numbers(text: &[u8], settings: Option<Settings>) -> RecordRead {
    let Some(settings) = settings else {
        return RecordRead::default();
    };
    let (rua_begin, rua_length) = policy::rua_part(text);
    RecordRead {
        is_record: true,
        settings: numbers(&settings),
        reports: settings.rua_valid,
        rua_begin,
        rua_length,
    }
}

fn said(answer: Result<usize, Refusal>) -> String {
    answer.map_or_else(
        |refusal| refusal.to_string(),
        |length| format!("{length} octets written"),
    )
}

fn listed(read: &RecordRead) -> String {
    match read.is_record {
        true => format!(
            "{}, reports={}, rua at {} of {} octets",
            numbers_words(read.settings),
            read.reports,
            read.rua_begin,
            read.rua_length
        ),
        false if *read == RecordRead::default() => "no record".to_string(),
        false => format!("no record, but {read:?}"),
    }
}

/// Settings in words.
pub fn numbers_words(numbers: RecordNumbers) -> String {
    let RecordNumbers {
        p,
        sp,
        np,
        adkim,
        aspf,
        psd,
        t,
    } = numbers;
    format!("p={p} sp={sp} np={np} adkim={adkim} aspf={aspf} psd={psd} t={t}")
}

fn shown(writing: &Writing) -> String {
    format!(
        "{} rua={}, {} octets lent",
        numbers_words(writing.numbers),
        quoted(writing.rua),
        writing.lent
    )
}
