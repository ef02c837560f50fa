//! Refusals.

use std::error::Error;
use std::fmt;

use crate::raw;

/// Why a call is refused: a number of the README's table, and a place.
#[derive(Clone, Copy, Debug, PartialEq, Eq, Hash)]
pub struct Refusal {
    /// Its number.
    pub number: u8,
    /// An octet, an index, or the octets needed, as the number says; else 0.
    pub place: usize,
}

/// What each number means.
const MEANINGS: &[(u8, &str)] = &[
    (1, "the author domain is no domain"),
    (2, "an identifier's domain is no domain"),
    (3, "a number that is not listed"),
    (4, "a 17th identifier, or a second SPF"),
    (5, "an answer for a name that is not now asked"),
    (6, "an answer over a limit or unreadable"),
    (7, "nothing was begun, or there is no verdict yet"),
    (8, "a broken sheet, or one name answered twice"),
    (9, "the result has no field, or no identifier was given"),
    (10, "the lent memory is too short"),
    (11, "a bad domain, selector, id or time of a report"),
    (12, "no free row and no match"),
    (13, "the count would pass its limit"),
    (14, "not a pass or fail"),
    (15, "p is absent, or a policy setting is invalid"),
    (16, "a rua text that cannot be written"),
    (17, "too late for an identifier, or nothing was opened"),
    (18, "no row with a count"),
    (19, "a text of the reporter is empty, too long or not plain"),
    (20, "text outside the form of a report"),
    (21, "a begin, end or count over its width"),
    (22, "the report ends early"),
    (23, "no valid mailto: with a domain, or a comma"),
    (24, "not the grammar of the field"),
    (25, "a ninth comment within comments"),
    (26, "a method that the field names already"),
    (27, "another policy domain, or a list never cleared"),
    (28, "a number past its list, or a bad set of identifiers"),
];

impl Refusal {
    /// What its number means, in a few words.
    pub fn meaning(&self) -> &'static str {
        let row = MEANINGS.iter().find(|(number, _)| *number == self.number);
        row.map_or("no number of a refusal", |(_, meaning)| meaning)
    }

    /// Nothing where a call is of kind accepted, or its refusal.
    pub(crate) fn unless_accepted(kind: u8, refusal: raw::Refusal) -> Result<(), Refusal> {
        match kind {
            raw::ACCEPTED => Ok(()),
            _ => Err(refusal.into()),
        }
    }

    /// Nothing, or the refusal; number 0 is none.
    pub(crate) fn check(refusal: raw::Refusal) -> Result<(), Refusal> {
        match refusal.number {
            0 => Ok(()),
            _ => Err(refusal.into()),
        }
    }
}

impl From<raw::Refusal> for Refusal {
    fn from(refusal: raw::Refusal) -> Refusal {
        Refusal {
            number: refusal.number,
            place: refusal.place,
        }
    }
}

impl fmt::Display for Refusal {
    /// As it is printed for a sheet: `refused 1 at 0`.
    fn fmt(&self, out: &mut fmt::Formatter<'_>) -> fmt::Result {
        write!(out, "refused {} at {}", self.number, self.place)
    }
}

impl Error for Refusal {}
