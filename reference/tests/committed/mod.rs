//! The committed vectors, as requests.

use reference::forms::binary::{requests_from_bytes, AnyRequest};
use reference::forms::request::Request;
use reference::forms::text::request_from_text;

/// The requests of the text form, and those of the binary form without its runs.
pub fn vectors() -> [(&'static str, Vec<Request>); 2] {
    let lines = include_str!("../../vectors/text.requests").lines();
    let text = lines.map(|line| request_from_text(line).expect("a request"));
    let bytes = requests_from_bytes(include_bytes!("../../vectors/requests.stdin"));
    let bytes = bytes.expect("whole requests").into_iter().filter_map(|request| match request {
        AnyRequest::One(request) => Some(request),
        AnyRequest::Run(_) => None,
    });
    [("text", text.collect()), ("bytes", bytes.collect())]
}
