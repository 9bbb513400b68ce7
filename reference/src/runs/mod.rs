//! What is run: a chart and its network side by side, with every clause that is demanded of the two
//! tested; the choice of the vectors for programs; and, with the feature `proved`, the proved
//! implementation and its comparison with this one.

pub mod clauses;
#[cfg(feature = "proved")]
pub mod compare;
pub mod longest;
pub mod moment;
#[cfg(feature = "proved")]
pub mod proved;
pub mod side_by_side;
pub mod steps;
pub mod take_up;
pub mod vector_files;
