//! What the proved program printed: the names asked and the verdict, or a
//! refusal.

use evaluator::refusal::Refusal;

#[derive(Clone, Debug, PartialEq, Eq)]
pub enum Printed {
    Verdict {
        asked: Vec<Vec<u8>>,
        /// The lines after the names.
        lines: Vec<Vec<u8>>,
    },
    Refused(Refusal),
}

impl Printed {
    /// Reads an output; nothing if it has not the form of one.
    pub fn read(output: &[u8]) -> Option<Printed> {
        let text = output.strip_suffix(b"\n")?;
        if let Some(refused) = text.strip_prefix(b"refused ") {
            return refusal(refused).map(Printed::Refused);
        }
        let (mut asked, mut lines) = (Vec::new(), Vec::new());
        for line in text.split(|octet| *octet == b'\n') {
            match line.strip_prefix(b"ask ") {
                Some(name) => asked.push(name.to_vec()),
                None => lines.push(line.to_vec()),
            }
        }
        let whole = lines.first()?.starts_with(b"result ");
        whole.then_some(Printed::Verdict { asked, lines })
    }
}

/// `N at P`.
fn refusal(words: &[u8]) -> Option<Refusal> {
    let words = std::str::from_utf8(words).ok()?;
    let (number, place) = words.split_once(" at ")?;
    Some(Refusal::new(number.parse().ok()?, place.parse().ok()?))
}
