//! Sheets in every other form than their octets: described, explained, worked
//! through by hand, generated from a seed; what is said at the desk of a message
//! that was handed over, of an address check, of a day's rows and of reports that were
//! received; and the cases of the comparison and of the program `messages`.

#![forbid(unsafe_code)]

pub mod address;
mod cells;
pub mod command;
pub mod day;
pub mod description;
mod domain_words;
pub mod examples;
pub mod explain;
pub mod generate;
pub mod handed;
pub mod json;
mod label_shapes;
pub mod marked;
pub mod message_json;
pub mod next_name;
pub mod notes;
pub mod policy_words;
pub mod printed;
pub mod programs;
pub mod random;
pub mod received;
pub mod refused;
mod shown;
mod tag_lists;
pub mod tally;
pub mod walk_sheets;
pub mod written;
