//! Messages whose field is written.

use evaluator::field::Methods;
use evaluator::message::Kind;
use evaluator::verdict::Alignment;
use waslidhaj::{records, Answer, Evaluation, Existence, Outcome, Refusal, Step, SCRATCH_OCTETS};

const AUTHOR: &str = "example.com";
const RECORD: &[u8] = b"\x12v=DMARC1; p=reject";

/// Whether an identifier of each kind is given, and is aligned.
#[derive(Clone, Copy, Debug, PartialEq, Eq)]
pub struct Given {
    pub dkim: Option<bool>,
    pub spf: Option<bool>,
}

impl Given {
    /// All messages that have an identifier.
    pub fn all() -> Vec<Given> {
        let states = [None, Some(true), Some(false)];
        let pairs = states.map(|dkim| states.map(|spf| Given { dkim, spf }));
        let has_one = |given: &Given| given.dkim.or(given.spf).is_some();
        pairs.into_iter().flatten().filter(has_one).collect()
    }

    /// The methods that its field names: those given and not aligned.
    pub fn methods(self) -> Methods {
        Methods {
            dkim: self.dkim == Some(false),
            spf: self.spf == Some(false),
        }
    }

    pub fn judged(self) -> Vec<(Kind, Alignment)> {
        let alignment = |aligned| match aligned {
            true => Alignment::Aligned,
            false => Alignment::NotAligned,
        };
        let dkim = self.dkim.map(|aligned| (Kind::Dkim, alignment(aligned)));
        let spf = self.spf.map(|aligned| (Kind::Spf, alignment(aligned)));
        dkim.into_iter().chain(spf).collect()
    }
}

/// The field that the proved code writes at the verdict of such a message.
pub fn proved(given: Given) -> Result<Vec<u8>, String> {
    field(given).map_err(|refusal| refusal.to_string())
}

/// A pass of the author's own domain is aligned, no pass is not.
fn field(given: Given) -> Result<Vec<u8>, Refusal> {
    let mut evaluation = Evaluation::open(AUTHOR, Existence::Exists, true)?;
    let kinds = [
        (waslidhaj::Kind::Dkim, given.dkim),
        (waslidhaj::Kind::Spf, given.spf),
    ];
    for (kind, aligned) in kinds {
        let outcome = match aligned {
            None => continue,
            Some(true) => Outcome::Pass,
            Some(false) => Outcome::NotPassing,
        };
        evaluation.add(kind, outcome, AUTHOR)?;
    }
    let own = records(&[RECORD]).unwrap_or_default();
    let mut scratch = [0; SCRATCH_OCTETS];
    while let Step::Ask(name) = evaluation.next()? {
        let answer = match name.as_str() {
            "_dmarc.example.com" => Answer::Records(&own),
            _ => Answer::NoRecords,
        };
        evaluation.answer(name, answer, &mut scratch)?;
    }
    let mut out = [0; 64];
    let length = evaluation.field(&mut out)?;
    Ok(out.get(..length).unwrap_or_default().to_vec())
}
