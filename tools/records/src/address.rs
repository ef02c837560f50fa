//! An address check (Ask 11 of document 02): what is printed of it is the proved
//! code's, the words the second evaluator's, once both come to the same.

pub mod code;

use crate::told::REFUSED;
use crate::words::{differing, two};
use evaluator::address::book::AddressBook;
use evaluator::address::{Outcome, Verdict};
use sheets::address::{advice, json, lines, notes, run, AddressHanded, Calls, Came, Ran};
use sheets::explain::HEAD;
use sheets::marked::shown;

/// The exit status of the first outcome by its number.
const OUTCOMES: u8 = 20;

/// In which form a check is told.
#[derive(Clone, Copy, Debug, PartialEq, Eq)]
pub enum Form {
    Plain,
    /// With why it comes out so.
    Explain,
    /// As one JSON object.
    Json,
    /// The next name to ask, or the outcome.
    Next,
}

/// What is printed of a check and said beside it, and the exit status: 0 for a next
/// name, 3 for a refusal, 20 and its number for an outcome.
#[derive(Clone, Debug, PartialEq, Eq)]
pub struct Said {
    pub printed: Vec<String>,
    pub notes: Vec<String>,
    pub status: u8,
}

impl Form {
    /// The form of a word.
    pub fn read(word: &[u8]) -> Option<Form> {
        match word {
            b"plain" => Some(Form::Plain),
            b"explain" => Some(Form::Explain),
            b"json" => Some(Form::Json),
            b"next" => Some(Form::Next),
            _ => None,
        }
    }

    /// Whether a name without an answer is a failed lookup; else it is the next name.
    pub fn is_complete(self) -> bool {
        self != Form::Next
    }
}

/// What both codes came to; the error says how they differ.
pub fn agreed(code: &mut impl Calls, handed: &AddressHanded) -> Result<Ran, String> {
    let (given, expected) = (run(code, handed), run(&mut AddressBook::default(), handed));
    match given == expected {
        true => Ok(given),
        false => {
            let (given, expected) = (compared(&given), compared(&expected));
            Err(two("the checks differ", &given, &expected))
        }
    }
}

/// All that is said of a check, once both codes agree on it.
pub fn said(code: &mut impl Calls, form: Form, handed: &AddressHanded) -> Result<Said, String> {
    let ran = agreed(code, handed).map_err(differing)?;
    Ok(Said {
        printed: printed(form, handed, &ran),
        notes: beside(form, handed, &ran),
        status: status(&ran),
    })
}

fn printed(form: Form, handed: &AddressHanded, ran: &Ran) -> Vec<String> {
    match form {
        Form::Plain => all_lines(ran),
        Form::Next => last_lines(ran),
        Form::Json => vec![json(handed).to_string()],
        Form::Explain => {
            let why = [vec![HEAD.to_string()], lines(handed)].concat();
            [all_lines(ran), why].concat()
        }
    }
}

/// The names asked, if there is an outcome, and what came of them.
fn all_lines(ran: &Ran) -> Vec<String> {
    let asked = match ran.came {
        Came::Verdict(_) => ran.names.as_slice(),
        _ => &[],
    };
    let asked = asked.iter().map(|name| format!("ask {}", shown(name)));
    asked.chain(last_lines(ran)).collect()
}

fn last_lines(ran: &Ran) -> Vec<String> {
    match &ran.came {
        Came::Refused(refusal, _) => vec![refusal.to_string()],
        Came::Next(name) => vec![shown(name)],
        Came::Verdict(verdict) => verdict_lines(verdict, &ran.text),
    }
}

fn verdict_lines(verdict: &Verdict, text: &[u8]) -> Vec<String> {
    let mut lines = vec![format!("agreement {}", verdict.outcome.word())];
    if let Outcome::Replaced { .. } = verdict.outcome {
        lines.push(format!("rua {}", shown(text)));
    }
    lines.push(format!("asked {}", verdict.asked));
    lines
}

/// The lines, and of a replaced address where the text stands in the scratch.
fn compared(ran: &Ran) -> String {
    let mut lines = all_lines(ran);
    if let Came::Verdict(verdict) = &ran.came {
        if let Outcome::Replaced { begin, length } = verdict.outcome {
            lines.push(format!("{length} octets at {begin} of the scratch"));
        }
    }
    lines.join("\n")
}

/// What is said on standard error. Explanation and JSON have the advice themselves;
/// between two questions of a live check there is nothing to say.
fn beside(form: Form, handed: &AddressHanded, ran: &Ran) -> Vec<String> {
    let refused = matches!(ran.came, Came::Refused(..));
    match form {
        Form::Plain => [notes(handed), advice(handed)].concat(),
        Form::Explain | Form::Json => notes(handed),
        Form::Next if refused => notes(handed),
        Form::Next => advice(handed),
    }
}

fn status(ran: &Ran) -> u8 {
    match &ran.came {
        Came::Refused(..) => REFUSED,
        Came::Next(_) => 0,
        Came::Verdict(verdict) => OUTCOMES + verdict.outcome.number(),
    }
}
