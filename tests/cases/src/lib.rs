//! Cases on which two renderings of documents 01 and 02 are compared: named, at boundaries, and seeded.
//! The generators are a library, so that a test that links another program can use them too.

pub mod boundaries;
mod boundary_calls;
mod boundary_frames;
mod boundary_records;
mod boundary_replicas;
mod boundary_streams;
pub mod build;
pub mod case;
pub mod check;
pub mod compare;
pub mod damage;
pub mod edit;
pub mod files;
pub mod fixed;
pub mod generate;
mod named_calls;
mod named_frames;
mod named_program;
mod named_replica_calls;
mod named_replicas;
pub mod named_retagging;
pub mod named_streams;
mod properties;
pub mod rng;
pub mod rules;
mod tally;
#[cfg(test)]
mod wrong_replicas;
