//! Test vectors: single cases, and the line of each by the second evaluator's own
//! functions. Lent memory comes filled with octet 255.

mod answers;
mod case;
mod fields;
mod labels;
mod line;
mod names;
mod octets;
mod policies;
mod repeats;

pub use case::{AnswerCase, Case, FieldCase, Method, NameCase};
pub use line::line;

/// All cases: policy texts, answers, file names, fields, labels.
pub fn cases() -> Vec<Case> {
    let policies = policies::texts().into_iter().chain(repeats::texts());
    let policies = policies.map(Case::Policy);
    let answers = answers::answers().into_iter().map(Case::Answer);
    let names = names::names().into_iter().map(Case::FileName);
    let fields = fields::fields().into_iter().map(Case::Field);
    let labels = labels::domains().into_iter().map(Case::Labels);
    let texts = policies.chain(answers);
    texts.chain(names).chain(fields).chain(labels).collect()
}
