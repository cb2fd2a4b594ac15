//! The clearing ledger for Bill Ready and Prepay charges, written a second time.
//!
//! It is made from document 01 (the contract), document 02 (later requests) and the readings of them, and shares no
//! code with the proved engine, so that the two can be held against each other. Names are the documents'. It changes
//! its ledger in place.

pub mod calendar;
pub mod cause;
pub mod coverage;
pub mod dates;
pub mod expect;
pub mod fields;
pub mod file;
pub mod generator;
pub mod groups;
pub mod history;
pub mod journal;
pub mod ledger;
pub mod notices;
pub mod prng;
pub mod request;
pub mod running;
pub mod show;
pub mod shrink;
pub mod sound;
pub mod table;
pub mod trace;
pub mod verdict;
pub mod words;
pub mod workload;

pub use cause::Cause;
pub use ledger::{Bill, Ledger, Posted};
pub use request::{CalendarRequest, Request};
