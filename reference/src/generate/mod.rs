//! What the tests, the runs, the comparison and the vectors are made from: charts, networks, requests and
//! lists, from seeds and by hand, and damage to them.

pub mod breaks;
pub mod candidates;
pub mod charts;
pub mod completion;
pub mod damage;
pub mod faulty;
pub mod longest;
pub mod random;
pub mod range;
pub mod sensors;
pub mod special;
pub mod special_breaks;
pub mod special_completion;
pub mod special_range;
pub mod special_sensors;
pub mod updates;
pub mod walk;
