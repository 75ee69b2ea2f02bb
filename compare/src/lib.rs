//! Compares the proved library with a model written from the paper by a different hand.

pub mod comparison;
pub mod generator;
pub mod library;
pub mod model;
pub mod random;
pub mod report;
pub mod scenario;
pub mod secrecy;
pub mod shrink;
pub mod subject;
pub mod tally;
