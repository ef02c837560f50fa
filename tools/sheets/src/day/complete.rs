//! A day that has all the lines that a report needs.

use super::{Day, DayRow, Given, Text};
use crate::handed::in_file;

pub const ROW_LINE: &str =
    "a day has lines such as: row 192.0.2.1 3 none aligned dkim author example.com";

/// A day with what its report is made from.
#[derive(Clone, Copy, Debug, PartialEq, Eq)]
pub struct Complete<'a> {
    /// The name of its file.
    pub name: &'a str,
    pub domain: &'a Text,
    pub record: &'a Text,
    pub organization: &'a Text,
    pub email: &'a Text,
    pub contact: Option<&'a Text>,
    pub receiver: &'a Text,
    pub id: &'a Text,
    pub begin: &'a Given<u64>,
    pub end: &'a Given<u64>,
    pub rows: &'a [DayRow],
}

impl Day {
    /// All that a report needs; the error names each line that is missing.
    pub fn complete(&self) -> Result<Complete<'_>, String> {
        self.whole().ok_or_else(|| {
            let missing = self.missing();
            let lines = missing.map(|such| format!("a report needs a line such as: {such}"));
            in_file(&self.name, &lines.collect::<Vec<_>>().join("\n"))
        })
    }

    fn whole(&self) -> Option<Complete<'_>> {
        Some(Complete {
            name: &self.name,
            domain: self.domain.as_ref()?,
            record: self.record.as_ref()?,
            organization: self.organization.as_ref()?,
            email: self.email.as_ref()?,
            contact: self.contact.as_ref(),
            receiver: self.receiver.as_ref()?,
            id: self.id.as_ref()?,
            begin: self.begin.as_ref()?,
            end: self.end.as_ref()?,
            rows: &self.rows,
        })
    }

    /// The lines that a report needs and no line gives, each as it could be.
    fn missing(&self) -> impl Iterator<Item = &'static str> {
        let lines = [
            (self.domain.is_some(), "domain example.com"),
            (self.record.is_some(), "record \"v=DMARC1; p=reject\""),
            (self.organization.is_some(), "organization \"Gate & Sons\""),
            (self.email.is_some(), "email dmarc@gate.example"),
            (self.receiver.is_some(), "receiver gate.example"),
            (self.id.is_some(), "id r7"),
            (self.begin.is_some(), "begin 2023-11-14T00:00:00Z"),
            (self.end.is_some(), "end 2023-11-14T23:59:59Z"),
        ];
        let missing = lines.into_iter().filter(|(given, _)| !given);
        missing.map(|(_, such)| such)
    }
}
