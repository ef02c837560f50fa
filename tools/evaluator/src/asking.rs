//! What both books keep of their calls: the accepted answers and the name now
//! asked.

use crate::domain::without_dot;
use crate::refusal::Refusal;
use crate::report;
use crate::txt::{self, Answer, Status};

/// Refusal 10: "scratch under 4,096 octets"
pub const SCRATCH_OCTETS: usize = 4096;

/// An accepted answer as it was handed in.
#[derive(Clone, Debug, PartialEq, Eq)]
struct Accepted {
    name: Vec<u8>,
    status: Status,
    bytes: Vec<u8>,
}

/// "accepted answers and the name now asked; the last two start empty"
#[derive(Clone, Debug, Default, PartialEq, Eq)]
pub struct Asking {
    accepted: Vec<Accepted>,
    asked: Option<Vec<u8>>,
}

impl Asking {
    /// This name "is given and now asked".
    pub fn ask(&mut self, name: &[u8]) {
        self.asked = Some(name.to_vec());
    }

    /// The name now asked.
    pub fn now_asked(&self) -> Option<&[u8]> {
        self.asked.as_deref()
    }

    /// "Answer: 5, 6, 10; else kept, scratch as above, no name asked."
    pub fn answer(
        &mut self,
        name: &[u8],
        answer: Answer,
        scratch: &mut [u8],
    ) -> Result<(), Refusal> {
        let name = without_dot(name);
        let now_asked = |asked: &Vec<u8>| asked.eq_ignore_ascii_case(name);
        if !self.asked.as_ref().is_some_and(now_asked) {
            return Err(Refusal::new(5, 0));
        }
        if !txt::acceptable(answer) {
            return Err(Refusal::new(6, 0));
        }
        if scratch.len() < SCRATCH_OCTETS {
            return Err(Refusal::new(10, SCRATCH_OCTETS));
        }
        if answer.status == Status::Records {
            // "all its texts in record order from octet 0, the rest unchanged"
            let texts = txt::texts(answer.bytes).unwrap_or_default();
            report::lend(&texts.concat(), scratch)?;
        }
        self.keep(answer);
        Ok(())
    }

    /// Keeps an answer for the name now asked, and then no name is asked.
    fn keep(&mut self, answer: Answer) {
        let bytes = match answer.status {
            Status::Records => answer.bytes.to_vec(),
            // "bytes that come with none or error are not read"
            Status::None | Status::Error => Vec::new(),
        };
        if let Some(name) = self.asked.take() {
            self.accepted.push(Accepted {
                name,
                status: answer.status,
                bytes,
            });
        }
    }

    /// The accepted answer of a name, if there is one.
    pub fn accepted(&self, name: &[u8]) -> Option<Answer<'_>> {
        let accepted = self.accepted.iter().find(|known| known.name == name)?;
        Some(Answer {
            status: accepted.status,
            bytes: &accepted.bytes,
        })
    }
}
