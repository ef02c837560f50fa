//! Tests of days told and of their aggregate reports. What must come out is written
//! by hand from documents 01 and 02, the agreed readings and RFC 9990.

mod days;
mod mail;
mod readers;
mod received;
mod schema;
mod written;
