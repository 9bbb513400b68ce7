//! What the papers say: charts and networks on file, their refusals, flattening, the machines that run
//! both, and weft breaks in a window. Nothing here uses the other folders.

pub mod alternatives;
pub mod chart;
pub mod chart_machine;
pub mod check;
pub mod expression;
pub mod flatten;
pub mod guard;
pub mod label;
pub mod layout;
pub mod limits;
pub mod moves;
pub mod network;
pub mod network_machine;
pub mod picture;
pub mod plain;
pub mod reader;
pub mod refusal;
pub mod update;
pub mod values;
pub mod version;
pub mod weft_breaks;
