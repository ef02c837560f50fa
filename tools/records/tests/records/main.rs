//! Tests of the numbers, the words and the commands. What must come out is
//! written by hand from documents 01 and 02 and the agreed readings.

#[path = "../../../sheets/tests/sheets/program.rs"]
mod program;

mod address;
mod agreeing;
mod commands;
mod field;
mod numbers;
mod reading;
mod times;
mod writing;
