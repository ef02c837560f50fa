//! An address check (Ask 11 of document 02) as it is handed over at the desk, and
//! what is said of it: whether the address is inside, the names asked one by one,
//! what came of them and why, and where reports may go; in lines and as JSON.

mod advice;
mod calls;
mod handed;
mod json;
mod notes;
mod reasons;
mod refused;
mod words;

use evaluator::address::book::AddressBook;
use evaluator::address::{Address, Check};

pub use advice::advice;
pub use calls::{run, Calls, Came, Ran, Step};
pub use handed::{AddressHanded, GivenAnswer};
pub use json::json;
pub use notes::notes;
pub use words::lines;

/// What an address check is told from: the calls of it made on a book.
struct Told<'h> {
    handed: &'h AddressHanded,
    /// Nothing where the start was refused.
    started: Option<(Address, Check)>,
    ran: Ran,
}

impl<'h> Told<'h> {
    fn new(handed: &'h AddressHanded) -> Told<'h> {
        let mut book = AddressBook::default();
        let ran = run(&mut book, handed);
        let address = Address::read(&handed.policy, &handed.entry).ok();
        Told {
            handed,
            started: address.zip(book.check()),
            ran,
        }
    }
}

/// Octets that are all in ASCII, as they stand.
fn plain(octets: &[u8]) -> String {
    String::from_utf8_lossy(octets).into_owned()
}
