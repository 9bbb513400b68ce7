//! What is asked and answered, and how it is written: requests with their answers, as lines of text and
//! as bytes, and charts and networks as text that a person writes.

pub mod binary;
pub mod description;
pub mod request;
pub mod run_request;
pub mod text;
