//! The proved reader of the field, with its answer in the second evaluator's
//! values.

use evaluator::field::Methods;
use evaluator::refusal::Refusal;

/// The methods that a field names, or a refusal.
pub type Read = Result<Methods, Refusal>;

/// The proved code's answer.
pub fn proved(text: &[u8]) -> Read {
    let methods = |own: waslidhaj::Methods| Methods {
        dkim: own.dkim,
        spf: own.spf,
    };
    let read = waslidhaj::read_field(text).map(methods);
    read.map_err(|own| Refusal::new(own.number, own.place))
}
