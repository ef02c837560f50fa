//! Tests of the descriptions, explanations, worked examples, generators and
//! cases. What must come out is written by hand from document 01, the agreed
//! readings (by their point numbers) and RFC 9989.

#[path = "../../../evaluator/tests/documents/octets.rs"]
mod octets;
mod program;
mod stored;

mod address_files;
mod address_words;
mod appendix_b;
mod calls;
mod checks;
mod commands;
mod coverage;
mod day_words;
mod days;
mod describing;
mod domains;
mod examples;
mod explaining;
mod explaining_records;
mod final_dots;
mod generator;
mod marked;
mod messages;
mod mutating;
mod next_names;
mod noting;
mod pasting;
mod policy_words;
mod random_calls;
mod received_words;
mod refusals;
mod repeats;
mod script;
mod telling;
mod timing;
mod vectors;
mod walk_sheets;
