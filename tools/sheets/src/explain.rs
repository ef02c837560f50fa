//! Why a sheet's output is what it is, in plain words, from what the evaluator
//! kept on its way.

mod alignments;
mod paragraph;
mod records;
mod told;
mod verdict;

use crate::handed::Handed;
use crate::refused;
use evaluator::refusal::Refusal;
use evaluator::sheet;

pub use paragraph::Paragraph;
pub use told::Told;

/// The line above an explanation.
pub const HEAD: &str = "-- why";

/// The explanation of a message's output, below its head line.
pub fn explain(handed: &Handed) -> String {
    let octets = handed.sheet();
    let paragraphs = match (sheet::read(octets), sheet::reasoned(octets)) {
        (Ok(sheet), Ok(reasoned)) => all(&Told::new(&sheet, &reasoned)),
        (Err(refusal), _) | (_, Err(refusal)) => refusal_paragraphs(handed, refusal),
    };
    let mut text = format!("{HEAD}\n");
    for paragraph in paragraphs {
        text.push_str(&paragraph.to_string());
    }
    text
}

/// What the number and the place are in general, and what they are here.
fn refusal_paragraphs(handed: &Handed, refusal: Refusal) -> Vec<Paragraph> {
    let (reason, place) = refused::general(refusal.number);
    let meaning = refused::meaning(handed.sheet(), refusal);
    vec![
        Paragraph::new(format!("refused {}: {reason}", refusal.number)),
        Paragraph::new(format!("at {}: {place}", refusal.place)),
        Paragraph::new(format!(
            "{}: {}",
            handed.place_words(meaning.place),
            meaning.sentence
        )),
    ]
}

fn all(told: &Told) -> Vec<Paragraph> {
    let mut paragraphs = vec![verdict::author(told)];
    paragraphs.extend(records::paragraphs(told));
    paragraphs.extend(alignments::paragraphs(told));
    paragraphs.extend(verdict::paragraphs(told));
    paragraphs
}

/// What a verdict rests on, a sentence each: the records, then the verdict's
/// parts.
pub fn reasons(told: &Told) -> Vec<String> {
    let mut paragraphs = records::paragraphs(told);
    paragraphs.extend(verdict::paragraphs(told));
    paragraphs.iter().map(Paragraph::sentence).collect()
}

/// Why the identifier of an index has its alignment.
pub fn alignment_reason(told: &Told, index: usize) -> String {
    alignments::why(told, index)
}
