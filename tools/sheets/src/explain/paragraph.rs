//! A line of an explanation, with the texts and the details below it.

use std::fmt;

use crate::description::quoted;

#[derive(Clone, Debug, Default, PartialEq, Eq)]
pub struct Paragraph {
    line: String,
    texts: Vec<Vec<u8>>,
    details: Vec<String>,
}

impl Paragraph {
    pub fn new(line: String) -> Paragraph {
        Paragraph {
            line,
            ..Paragraph::default()
        }
    }

    /// With a policy text below the line.
    pub fn text(mut self, text: &[u8]) -> Paragraph {
        self.texts.push(text.to_vec());
        self
    }

    /// With details below the line.
    pub fn details(mut self, details: impl IntoIterator<Item = String>) -> Paragraph {
        self.details.extend(details);
        self
    }

    /// The line and its details in one, without the texts.
    pub fn sentence(&self) -> String {
        let details = self.details.iter().map(String::as_str);
        let parts: Vec<&str> = [self.line.as_str()].into_iter().chain(details).collect();
        parts.join("; ")
    }
}

impl fmt::Display for Paragraph {
    fn fmt(&self, out: &mut fmt::Formatter<'_>) -> fmt::Result {
        writeln!(out, "{}", self.line)?;
        for text in &self.texts {
            writeln!(out, "  text: {}", quoted(text))?;
        }
        for detail in &self.details {
            writeln!(out, "  {detail}")?;
        }
        Ok(())
    }
}
