//! One row of a table of worked sheets: what is on the sheet, and what must
//! come out. Both are written by hand.

use crate::description::make;
use evaluator::sheet;

/// Names are without their `_dmarc.`.
#[derive(Clone, Copy, Debug)]
pub struct Example {
    pub name: &'static str,
    author: &'static str,
    existence: &'static str,
    support: &'static str,
    identifiers: &'static [&'static str],
    names: &'static [&'static str],
    records: &'static [(&'static str, Said)],
    asked: &'static [&'static str],
    out: &'static str,
}

#[derive(Clone, Copy, Debug)]
pub enum Said {
    /// One record of these character-strings.
    Record(&'static [&'static str]),
    Error,
}

/// A message of an author without identifiers: "existence 1, support 1 unless
/// said".
pub const fn author(author: &'static str) -> Example {
    Example {
        name: "",
        author,
        existence: "exists",
        support: "supported",
        identifiers: &[],
        names: &[],
        records: &[],
        asked: &[],
        out: "",
    }
}

/// What a row says.
impl Example {
    pub const fn row(self, name: &'static str) -> Example {
        Example { name, ..self }
    }

    /// In the words of a description.
    pub const fn existence(self, existence: &'static str) -> Example {
        Example { existence, ..self }
    }

    /// In the words of a description.
    pub const fn support(self, support: &'static str) -> Example {
        Example { support, ..self }
    }

    /// The identifiers, as lines of a description.
    pub const fn given(self, identifiers: &'static [&'static str]) -> Example {
        Example {
            identifiers,
            ..self
        }
    }

    /// The names that the sheet answers, in order.
    pub const fn answers(self, names: &'static [&'static str]) -> Example {
        Example { names, ..self }
    }

    /// What is answered at which of these names; at all others none.
    pub const fn at(self, records: &'static [(&'static str, Said)]) -> Example {
        Example { records, ..self }
    }

    /// The names that must be asked, in order.
    pub const fn asks(self, asked: &'static [&'static str]) -> Example {
        Example { asked, ..self }
    }

    /// Result, policy and disposition that must come out.
    pub const fn gives(self, out: &'static str) -> Example {
        Example { out, ..self }
    }
}

/// What is made of a row.
impl Example {
    pub fn description(&self) -> String {
        let (author, existence, support) = (self.author, self.existence, self.support);
        let mut lines = vec![format!("author {author} {existence} {support}")];
        lines.extend(self.identifiers.iter().map(|line| line.to_string()));
        for name in self.names {
            let record = self.records.iter().find(|(own, _)| own == name);
            let said = record.map_or("none".to_string(), |(_, said)| said.words());
            lines.push(format!("answer {} {said}", whole_name(name)));
        }
        lines.join("\n") + "\n"
    }

    /// The whole output.
    pub fn output(&self) -> String {
        let asks = self.asked.iter().map(|name| format!("ask _dmarc.{name}"));
        let parts = ["result", "policy", "disposition"].into_iter();
        let words = parts.zip(self.out.split(' '));
        let mut lines: Vec<String> = asks.collect();
        lines.extend(words.map(|(part, word)| format!("{part} {word}")));
        lines.push(format!("asked {}", self.asked.len()));
        lines.join("\n") + "\n"
    }

    /// The sheet, or why its description makes none.
    pub fn sheet(&self) -> Result<Vec<u8>, String> {
        make(self.description().as_bytes())
    }

    /// Whether the sheet's run gives the whole output.
    pub fn holds(&self) -> bool {
        self.sheet()
            .is_ok_and(|sheet| sheet::run(&sheet) == self.output().as_bytes())
    }
}

impl Said {
    /// As a line of a description.
    fn words(self) -> String {
        match self {
            Said::Record(strings) => format!("\"{}\"", strings.join("\" \"")),
            Said::Error => "error".to_string(),
        }
    }
}

/// The whole name, which a report consumer's record has already.
fn whole_name(name: &str) -> String {
    match name.contains("_dmarc.") {
        true => name.to_string(),
        false => format!("_dmarc.{name}"),
    }
}
