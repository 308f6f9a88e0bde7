//! Responses with headers and content.
use crate::http::fault::Fault;
use hyper::{Body, Response, StatusCode};

/// The result of a request.
pub(crate) type HandlerResult = Result<Response<Body>, Fault>;

/// Returns a response without content.
pub(crate) fn empty(status: StatusCode, headers: &[(&str, &str)]) -> HandlerResult {
    with_body(status, headers, Body::empty())
}

/// Returns a response with headers and content.
pub(crate) fn with_body(status: StatusCode, headers: &[(&str, &str)], body: Body) -> HandlerResult {
    let mut response = Response::builder().status(status);
    for (name, value) in headers {
        response = response.header(*name, *value);
    }
    let fault = |_| Fault::new(StatusCode::BAD_REQUEST, "UNSUPPORTED", "a header has an invalid value");
    response.body(body).map_err(fault)
}
