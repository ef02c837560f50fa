//! A second, independent evaluator of DMARC (RFC 9989) under the rules of
//! document 01.
//!
//! Written from the documents alone, to be compared sheet by sheet with
//! another evaluator. It is plain rather than fast.

#![forbid(unsafe_code)]

pub mod address;
pub mod aggregate;
mod asking;
pub mod book;
pub mod domain;
pub mod evaluate;
pub mod field;
pub mod grounds;
pub mod lists;
pub mod message;
pub mod policy;
pub mod publishing;
pub mod received;
pub mod refusal;
pub mod report;
pub mod rows;
pub mod sheet;
pub mod txt;
pub mod verdict;
pub mod walk;
