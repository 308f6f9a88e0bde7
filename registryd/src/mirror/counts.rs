//! The metrics of mirrors, by tenant, and the last failure of each upstream.
use crate::metadata::clock;
use crate::operation::locks::guard_of;
use crate::operation::metrics::Metrics;
use prometheus::{IntCounter, IntCounterVec, Opts};
use std::sync::Mutex;

/// A failure: its text, and its time in seconds since 1970.
#[derive(Clone)]
pub(crate) struct LastFailure {
    pub(crate) text: String,
    pub(crate) time: u64,
}

/// The counters of all mirrors.
pub(crate) struct CountsByTenant {
    hits: IntCounterVec,
    misses: IntCounterVec,
    fetched: IntCounterVec,
    failures: IntCounterVec,
    limited: IntCounterVec,
    evicted: IntCounterVec,
}

/// The counters of a mirror.
pub(crate) struct Counts {
    /// Requests for manifests and blobs that were served from the store.
    pub(crate) hits: IntCounter,
    /// Requests for manifests and blobs that the store did not have.
    pub(crate) misses: IntCounter,
    /// Bytes of content that the upstream sent.
    pub(crate) fetched: IntCounter,
    failures: IntCounter,
    /// Responses with status 429.
    pub(crate) limited: IntCounter,
    /// Manifests and blobs that were deleted to make room.
    pub(crate) evicted: IntCounter,
    last: Mutex<Option<LastFailure>>,
}

impl CountsByTenant {
    /// Makes the counters, and adds them to the metrics.
    pub(crate) fn new(metrics: &Metrics) -> CountsByTenant {
        let counter = |name: &str, help: &str| {
            let counter = IntCounterVec::new(Opts::new(name, help), &["tenant"]).expect("a counter's name");
            metrics.add(Box::new(counter.clone()));
            counter
        };
        CountsByTenant {
            hits: counter("registryd_mirror_hits_total", "Manifests and blobs of mirrors that were served from the store."),
            misses: counter("registryd_mirror_misses_total", "Manifests and blobs of mirrors that the store did not have."),
            fetched: counter("registryd_mirror_fetched_bytes_total", "Bytes of content that upstreams of mirrors sent."),
            failures: counter("registryd_mirror_failures_total", "Requests to upstreams of mirrors that failed."),
            limited: counter("registryd_mirror_limited_total", "Responses with status 429 of upstreams of mirrors."),
            evicted: counter("registryd_mirror_evicted_total", "Manifests and blobs of mirrors that were deleted to make room."),
        }
    }

    /// Returns the counters of a tenant.
    pub(crate) fn of(&self, tenant: &str) -> Counts {
        let of = |counter: &IntCounterVec| counter.with_label_values(&[tenant]);
        Counts {
            hits: of(&self.hits),
            misses: of(&self.misses),
            fetched: of(&self.fetched),
            failures: of(&self.failures),
            limited: of(&self.limited),
            evicted: of(&self.evicted),
            last: Mutex::default(),
        }
    }
}

impl Counts {
    /// Counts a failure of the upstream.
    pub(super) fn failed(&self, text: &str) {
        self.failures.inc();
        *guard_of(self.last.lock()) = Some(LastFailure { text: text.to_string(), time: clock::time_of_day() });
    }

    /// Returns the number of failures, and the last one.
    pub(crate) fn failures(&self) -> (u64, Option<LastFailure>) {
        (self.failures.get(), guard_of(self.last.lock()).clone())
    }
}
