//! The independent second program: document 01, and request 2 of document 02, rendered plainly, one
//! room a subject. Written from the documents and the decisions alone; slow where slow is plain.

pub mod crc;
pub mod image;
pub mod judge;
pub mod k;
pub mod ledger;
pub mod list;
pub mod load;
pub mod program;
mod rules;
pub mod stream;
pub mod tables;
pub mod tile;
