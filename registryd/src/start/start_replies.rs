//! The replies of an address before the registry serves. A start lasts while the store reads its log.
use crate::endpoints::registry::Registry;
use crate::folder::files;
use crate::http::browser::restrict;
use crate::http::fault::Fault;
use crate::http::responses::{empty, with_body};
use crate::operation::health::{ALIVE, HEALTH, READY};
use crate::start::recovery;
use crate::store::process;
use hyper::header::{HeaderValue, CONNECTION};
use hyper::{Body, Request, Response, StatusCode};
use std::fmt;
use std::path::Path;
use std::sync::Arc;
use std::time::Instant;
use tokio::sync::OnceCell;

/// How far a start is.
pub(crate) struct Progress {
    pub(crate) seconds: u64,
    log_bytes: u64,
    pub(crate) done: Done,
}

/// What a start has done.
#[derive(Clone, Copy, PartialEq, Eq)]
pub(crate) struct Done {
    /// The number of bytes that the store has read, if that is known.
    read: Option<u64>,
    /// The number of manifests of the database that were compared with the store.
    compared: u64,
}

impl fmt::Display for Progress {
    fn fmt(&self, text: &mut fmt::Formatter) -> fmt::Result {
        write!(text, "starting for {} s: ", self.seconds)?;
        let Done { read, compared } = self.done;
        if let Some(read) = read {
            write!(text, "the store has read {read} bytes, ")?;
        }
        write!(text, "the log has {} bytes", self.log_bytes)?;
        match compared {
            0 => Ok(()),
            _ => write!(text, ", {compared} manifests are compared with the store"),
        }
    }
}

/// What the addresses serve: the replies of a start, and the registry after it.
pub(crate) struct Service {
    begun: Instant,
    /// The length of the log that the store reads, in bytes.
    log_bytes: u64,
    registry: OnceCell<Arc<Registry>>,
}

impl Service {
    /// Makes the service of a start that begins now.
    pub(super) fn new(folder: Option<&Path>) -> Arc<Service> {
        let log_bytes = folder.and_then(files::log_length).unwrap_or(0);
        Arc::new(Service { begun: Instant::now(), log_bytes, registry: OnceCell::new() })
    }

    /// Returns the length of the log at the begin of the start, in bytes.
    pub(crate) fn log_bytes(&self) -> u64 {
        self.log_bytes
    }

    /// Serves the registry from now on.
    pub(crate) fn end_start(&self, registry: Arc<Registry>) {
        let _ = self.registry.set(registry);
    }

    /// Serves a request of a client.
    pub(super) async fn serve(self: Arc<Self>, request: Request<Body>) -> Response<Body> {
        match self.registry.get() {
            Some(registry) => registry.clone().serve(request).await,
            None => self.reply(request.uri().path()),
        }
    }

    /// Serves a request on the metrics address.
    pub(super) async fn serve_metrics(self: Arc<Self>, request: Request<Body>) -> Response<Body> {
        match self.registry.get() {
            Some(registry) => registry.clone().serve_metrics(request).await,
            None => self.reply(request.uri().path()),
        }
    }

    /// Returns how far the start is.
    pub(crate) fn progress(&self) -> Progress {
        let done = Done { read: process::bytes_read(), compared: recovery::manifests_compared() };
        Progress { seconds: self.begun.elapsed().as_secs(), log_bytes: self.log_bytes, done }
    }

    /// Returns the reply of a start. The connection is closed after it.
    fn reply(&self, path: &str) -> Response<Body> {
        let replied = match path {
            ALIVE => empty(StatusCode::OK, &[]),
            HEALTH | READY => {
                let headers = [("Content-Type", "text/plain"), ("Cache-Control", "no-store"), ("Retry-After", "1")];
                with_body(StatusCode::SERVICE_UNAVAILABLE, &headers, format!("{}\n", self.progress()).into())
            }
            _ => Err(Fault::unavailable("the registry is starting")),
        };
        let mut response = restrict(replied.unwrap_or_else(Fault::into_response));
        response.headers_mut().insert(CONNECTION, HeaderValue::from_static("close"));
        response
    }
}

#[cfg(test)]
mod tests {
    use super::*;

    #[test]
    fn replies_of_a_start_close_their_connections() {
        let service = Service::new(None);
        for (path, status) in [(ALIVE, 200), (HEALTH, 503), (READY, 503), ("/v2/", 503), ("/metrics", 503)] {
            let response = service.reply(path);
            assert_eq!(
                (response.status().as_u16(), &response.headers()[CONNECTION]),
                (status, &HeaderValue::from_static("close"))
            );
            assert_eq!(response.headers().contains_key("Retry-After"), status == 503, "{path}");
        }
    }

    #[test]
    fn progress_has_what_is_known() {
        let text = |read, compared| Progress { seconds: 3, log_bytes: 9, done: Done { read, compared } }.to_string();
        assert_eq!(text(Some(5), 0), "starting for 3 s: the store has read 5 bytes, the log has 9 bytes");
        assert_eq!(text(None, 0), "starting for 3 s: the log has 9 bytes");
        let compared =
            "starting for 3 s: the store has read 9 bytes, the log has 9 bytes, 4096 manifests are compared with the store";
        assert_eq!(text(Some(9), 4096), compared);
    }
}
