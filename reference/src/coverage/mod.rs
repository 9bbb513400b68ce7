//! What requests and runs exercise, to see that they cover enough: the features of a request, in words,
//! the tallies of runs, and by what it is told which rule decides an answer.

pub mod breaks_features;
pub mod features;
pub mod longest_features;
pub mod longest_reason;
pub mod longest_tally;
pub mod range;
pub mod range_features;
pub mod range_tally;
pub mod sensor_features;
pub mod sensor_tally;
pub mod sensors;
pub mod tally;
