//! What a command tells.

use crate::address::Said;

/// The exit status of a refusal.
pub const REFUSED: u8 = 3;

/// What is printed and said beside it, and the exit status.
#[derive(Clone, Debug, Default, PartialEq, Eq)]
pub struct Told {
    pub printed: Vec<u8>,
    pub notes: Vec<String>,
    pub status: u8,
}

impl From<Said> for Told {
    fn from(said: Said) -> Told {
        Told {
            printed: (said.printed.join("\n") + "\n").into_bytes(),
            notes: said.notes,
            status: said.status,
        }
    }
}
