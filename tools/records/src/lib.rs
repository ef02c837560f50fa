//! Policy records written and read by the proved code, fields read and report
//! addresses checked, held to the second evaluator, and said in words; a day's rows,
//! the aggregate report that the proved code writes of them, and reports that it reads.

#![forbid(unsafe_code)]

pub mod address;
pub mod agreement;
pub mod code;
pub mod day;
pub mod field;
pub mod reading;
pub mod received;
pub mod report;
pub mod told;
pub mod words;
pub mod writing;
