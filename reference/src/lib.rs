//! Tariff bill file intake and ledger, written a second time from document 01,
//! the requests of document 02 that have landed, and Rule 004 alone, so that the
//! product can be compared with it.
//!
//! Each item cites the sentence of document 01 or 02 that it implements.

#![forbid(unsafe_code)]
#![warn(missing_docs)]

pub mod bill;
pub mod booking;
pub mod calendar;
pub mod check;
pub mod codes;
pub mod conditions;
pub mod desk;
pub mod disputes;
pub mod fields;
pub mod file;
pub mod generate;
pub mod judge;
pub mod ledger;
pub mod periods;
pub mod plain;

mod hashing;
