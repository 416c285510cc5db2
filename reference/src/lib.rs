//! A plain reference model of the 512-byte ST25DV04K, written from documents 01 and 02.
//! D and a number in a comment is an entry of docs/DECISIONS.md.

pub mod asks;
pub mod bench;
pub mod crc;
pub mod cut;
pub mod dice;
pub mod examples;
pub mod explain;
pub mod faults;
pub mod feed;
pub mod inventory;
#[cfg(feature = "library")]
pub mod library;
pub mod met;
pub mod model;
pub mod names;
pub mod outcome;
pub mod pieces;
pub mod questions;
pub mod rack;
pub mod radio;
pub mod script;
pub mod state;
pub mod tag;
pub mod timing;
pub mod verdict;
pub mod wire;
