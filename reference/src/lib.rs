//! Hierarchical timed charts, their flat networks, and the machines that run both.
//!
//! This is the second implementation, written from the papers alone, with which the other one is
//! compared. It uses plain data types and has one concept to a file. `model` is the implementation; the
//! other folders are what it is asked, tried and compared with.

pub mod coverage;
pub mod forms;
pub mod generate;
pub mod model;
pub mod runs;
