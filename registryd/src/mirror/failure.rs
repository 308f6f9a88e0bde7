//! Why an upstream does not give what it is asked for.
use crate::http::fault::Fault;
use hyper::StatusCode;
use std::time::Instant;

/// The reason why an upstream does not give what it is asked for.
#[derive(Clone, Debug, PartialEq, Eq)]
pub(crate) enum UpstreamError {
    /// It has no such manifest, blob or repository.
    Unknown,
    /// It does not let the mirror read it.
    Denied,
    /// It wants no requests before this time.
    Limited(Instant),
    /// It cannot be reached, or its response is broken or wrong.
    Failed(String),
    /// This registry has no room for it.
    NoRoom(String),
}

impl UpstreamError {
    pub(super) fn failed(why: impl std::fmt::Display) -> UpstreamError {
        UpstreamError::Failed(why.to_string())
    }

    /// Returns the failure of a client's request. It is `unknown` if the upstream has no such thing.
    pub(crate) fn into_fault(self, unknown: Fault) -> Fault {
        match self {
            UpstreamError::Unknown => unknown,
            UpstreamError::Denied => {
                let message =
                    "the upstream of this mirror does not let it read this: the repository is unknown there, or private";
                Fault::new(StatusCode::FORBIDDEN, "DENIED", message)
            }
            UpstreamError::Limited(until) => {
                let seconds = until.saturating_duration_since(Instant::now()).as_secs() + 1;
                Fault::limited_upstream(seconds)
            }
            UpstreamError::Failed(why) => {
                Fault::new(StatusCode::BAD_GATEWAY, "UNSUPPORTED", format!("the upstream of this mirror failed: {why}"))
            }
            UpstreamError::NoRoom(why) => Fault::unavailable(&why),
        }
    }

    /// Returns the text for the log and the status.
    pub(crate) fn text(&self) -> String {
        match self {
            UpstreamError::Unknown => "it has no such thing".to_string(),
            UpstreamError::Denied => "it does not let the mirror read this".to_string(),
            UpstreamError::Limited(_) => "it limits the rate of requests (429)".to_string(),
            UpstreamError::Failed(why) | UpstreamError::NoRoom(why) => why.clone(),
        }
    }
}
