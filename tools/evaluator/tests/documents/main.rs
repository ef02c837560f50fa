//! Tests whose expected values come from the documents: document 01, Asks 1 to 5 and
//! 8 to 12 of document 02, the agreed readings (by their point numbers), RFC
//! 9989, RFC 9990 and RFC 9991.

mod address_case;
mod beside;
mod case;
mod day;
mod octets;

mod adding;
mod address_calls;
mod addresses;
mod aggregate;
mod aggregate_refusals;
mod answers;
mod book;
mod disposition;
mod field_reading;
mod final_dot;
mod labels;
mod lists;
mod opening;
mod policy_text;
mod publishing;
mod received;
mod repeated_tags;
mod report;
mod row_numbers;
mod rows;
mod sheets;
mod subject;
mod walks;
