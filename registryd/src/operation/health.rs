//! The paths by which others find out whether the registry runs, serves, and should get requests.
use crate::endpoints::registry::Registry;
use crate::http::fault::Fault;
use crate::http::responses::{empty, HandlerResult};
use crate::store::client::StoreUnavailable;
use hyper::StatusCode;
use std::sync::atomic::{AtomicBool, Ordering};

/// The path whose reply is 200 as long as the program runs.
pub(crate) const ALIVE: &str = "/livez";

/// The path whose reply is 200 if the store replies and the disk can be written.
pub(crate) const HEALTH: &str = "/healthz";

/// The path whose reply is 200 if the registry is healthy and is not about to stop.
pub(crate) const READY: &str = "/readyz";

/// Whether the registry is about to stop, so that a balancer sends its requests elsewhere.
#[derive(Debug, Default)]
pub(crate) struct Draining(AtomicBool);

impl Draining {
    /// Notes that the registry stops after some time.
    pub(crate) fn begin(&self) {
        self.0.store(true, Ordering::Relaxed);
    }

    fn is_begun(&self) -> bool {
        self.0.load(Ordering::Relaxed)
    }
}

impl Registry {
    /// Returns a response without content if the store replies.
    pub(crate) async fn probe(&self, headers: &[(&str, &str)]) -> HandlerResult {
        match self.store.replies().await {
            true => empty(StatusCode::OK, headers),
            false => Err(StoreUnavailable.into()),
        }
    }

    /// Returns a response without content if the store replies and the disk of the folder can be written.
    pub(crate) async fn health(&self) -> HandlerResult {
        if let Some(why) = self.disk_probe.as_ref().and_then(|probe| probe.fault()) {
            return Err(Fault::unavailable(&format!("the disk of the folder cannot be written: {why}")));
        }
        self.probe(&[]).await
    }

    /// Returns a response without content if the registry is healthy and is not about to stop.
    pub(crate) async fn readiness(&self) -> HandlerResult {
        match self.draining.is_begun() {
            true => Err(Fault::unavailable("the registry is about to stop")),
            false => self.health().await,
        }
    }
}
