//! The metrics for Prometheus.
use crate::folder::files::Folder;
use crate::metadata::clock;
use crate::store::calls::SweepResult;
use crate::store::client::{Store, StoreUnavailable};
use hyper::{Method, StatusCode};
use prometheus::{
    Encoder, HistogramOpts, HistogramVec, IntCounter, IntCounterVec, IntGauge, IntGaugeVec, Opts, Registry, TextEncoder,
};
use std::sync::atomic::{AtomicU64, Ordering};
use std::sync::Arc;
use std::time::Duration;

/// The media type of the text that Prometheus reads.
pub(super) const CONTENT_TYPE: &str = "text/plain; version=0.0.4";

/// The transactions of the database: their number, and the time of the last one.
#[derive(Clone)]
pub(crate) struct Commits {
    total: IntCounter,
    last: IntGauge,
}

impl Commits {
    pub(crate) fn new() -> Commits {
        let total = IntCounter::new("registryd_database_commits_total", "Transactions of the database of tags.");
        let help = "Time of the last transaction of the database of tags, in seconds since 1970.";
        let last = IntGauge::new("registryd_last_commit_timestamp_seconds", help);
        Commits { total: total.expect("a counter's name"), last: last.expect("a gauge's name") }
    }

    /// Returns the number of transactions.
    pub(crate) fn total(&self) -> u64 {
        self.total.get()
    }

    /// Counts a transaction.
    pub(crate) fn count(&self) {
        self.total.inc();
        self.last.set(clock::time_of_day() as i64);
    }
}

/// The syncs of the log, as far as the store was asked: their number, and the time at which it was last found to be greater.
struct Syncs {
    /// The number that the store last told.
    told: AtomicU64,
    total: IntCounter,
    last: IntGauge,
}

impl Syncs {
    fn new() -> Syncs {
        let total = IntCounter::new("registryd_syncs_total", "Syncs of the log of the store.");
        let help = "Time at which the registry last found a new sync of the log, in seconds since 1970.";
        let last = IntGauge::new("registryd_last_sync_seconds", help);
        Syncs { told: AtomicU64::new(0), total: total.expect("a counter's name"), last: last.expect("a gauge's name") }
    }

    /// Notes the number that the store tells. A lower one than before comes from a reply that was overtaken.
    fn note(&self, count: u64) {
        let before = self.told.fetch_max(count, Ordering::SeqCst);
        if count > before {
            self.total.inc_by(count - before);
            self.last.set(clock::time_of_day() as i64);
        }
    }
}

/// The counters and gauges. Clones share them.
#[derive(Clone)]
pub(crate) struct Metrics(Arc<Inner>);

struct Inner {
    registry: Registry,
    requests: IntCounterVec,
    seconds: HistogramVec,
    received: IntCounter,
    sent: IntCounter,
    sweeps: IntCounter,
    freed: IntCounter,
    held: IntGauge,
    uploads: IntGauge,
    free_slots: IntGauge,
    slots: IntGauge,
    used: IntGaugeVec,
    quota: IntGaugeVec,
    blobs: IntGaugeVec,
    share: IntGaugeVec,
    durable: IntGauge,
    verified: IntGauge,
    log: IntGauge,
    live: IntGauge,
    database: IntGauge,
    free: IntGauge,
    reserve: IntGauge,
    damaged_reads: IntCounter,
    commits: Commits,
    syncs: Syncs,
}

impl Metrics {
    pub(crate) fn new() -> Metrics {
        let registry = Registry::new();
        let counter = |name, help| IntCounter::new(name, help).expect("a counter's name");
        let gauge = |name, help| IntGauge::new(name, help).expect("a gauge's name");
        let by_tenant = |name, help| IntGaugeVec::new(Opts::new(name, help), &["tenant"]).expect("a gauge's name");
        let requests = Opts::new("registryd_requests_total", "Requests served, by method and status.");
        let seconds = HistogramOpts::new("registryd_request_seconds", "Time until the response begins, in seconds.");
        let inner = Inner {
            requests: IntCounterVec::new(requests, &["method", "status"]).expect("a counter's name"),
            seconds: HistogramVec::new(seconds, &["method"]).expect("a histogram's name"),
            received: counter("registryd_received_bytes_total", "Bytes of content received from clients."),
            sent: counter("registryd_sent_bytes_total", "Bytes of blobs sent to clients."),
            sweeps: counter("registryd_sweeps_total", "Sweeps of the garbage collector."),
            freed: counter("registryd_freed_slots_total", "Slots freed by sweeps."),
            held: gauge("registryd_held_slots", "Unlinked slots that the last sweep did not free because of readers."),
            uploads: gauge("registryd_uploads", "Open uploads."),
            free_slots: gauge("registryd_free_slots", "Slots available to new blobs without a sweep."),
            slots: gauge("registryd_slots", "Slots of the store."),
            used: by_tenant("registryd_tenant_used_bytes", "Bytes of a tenant's quota used by its blobs and uploads."),
            quota: by_tenant("registryd_tenant_quota_bytes", "Quota of a tenant, in bytes."),
            blobs: by_tenant("registryd_tenant_blobs", "Distinct blobs in a tenant's repositories."),
            share: by_tenant("registryd_tenant_share", "Maximum number of distinct blobs of a tenant, if it is limited."),
            durable: gauge("registryd_durable", "1 if a change is on the disk before its reply, 0 otherwise."),
            verified: gauge("registryd_store_verified", "1 if a record names the store's program as proved, 0 otherwise."),
            log: gauge("registryd_log_bytes", "Length of the log of the store, in bytes."),
            live: gauge("registryd_live_bytes", "Bytes of the blobs and uploads of all tenants."),
            database: gauge("registryd_database_bytes", "Length of the database of tags, in bytes."),
            free: gauge("registryd_free_bytes", "Bytes that are free on the disk of the folder."),
            reserve: gauge("registryd_reserve_bytes", "Bytes of the reserve, which is given up on a full disk."),
            damaged_reads: counter("registryd_damaged_reads_total", "Reads of blobs that failed because the content is damaged."),
            commits: Commits::new(),
            syncs: Syncs::new(),
            registry,
        };
        let all: [Box<dyn prometheus::core::Collector>; 16] = [
            Box::new(inner.requests.clone()),
            Box::new(inner.seconds.clone()),
            Box::new(inner.received.clone()),
            Box::new(inner.sent.clone()),
            Box::new(inner.sweeps.clone()),
            Box::new(inner.freed.clone()),
            Box::new(inner.held.clone()),
            Box::new(inner.uploads.clone()),
            Box::new(inner.free_slots.clone()),
            Box::new(inner.slots.clone()),
            Box::new(inner.used.clone()),
            Box::new(inner.quota.clone()),
            Box::new(inner.blobs.clone()),
            Box::new(inner.share.clone()),
            Box::new(inner.durable.clone()),
            Box::new(inner.verified.clone()),
        ];
        for collector in all {
            inner.registry.register(collector).expect("each name is registered once");
        }
        Metrics(Arc::new(inner))
    }

    /// Counts a request that was served.
    pub(crate) fn count_request(&self, method: &Method, status: StatusCode, took: Duration) {
        // A client may invent methods, and each label would be kept for ever.
        let method = match *method {
            Method::GET | Method::HEAD | Method::POST | Method::PUT | Method::PATCH | Method::DELETE => method.as_str(),
            _ => "other",
        };
        self.0.requests.with_label_values(&[method, status.as_str()]).inc();
        self.0.seconds.with_label_values(&[method]).observe(took.as_secs_f64());
    }

    pub(crate) fn received(&self, bytes: usize) {
        self.0.received.inc_by(bytes as u64);
    }

    pub(crate) fn sent(&self, bytes: usize) {
        self.0.sent.inc_by(bytes as u64);
    }

    /// Counts a read of a damaged content.
    pub(crate) fn count_damaged_read(&self) {
        self.0.damaged_reads.inc();
    }

    pub(super) fn count_sweep(&self, swept: &SweepResult) {
        self.0.sweeps.inc();
        self.0.freed.inc_by(swept.freed);
        self.0.held.set(swept.held as i64);
    }

    /// Sets whether the store's program was proved.
    pub(crate) fn set_verified(&self, is_verified: bool) {
        self.0.verified.set(i64::from(is_verified));
    }

    /// Returns the number of sweeps, of slots that they freed, and of slots that the last one did not free.
    pub(super) fn swept(&self) -> (u64, u64, i64) {
        (self.0.sweeps.get(), self.0.freed.get(), self.0.held.get())
    }

    /// Returns whether a change is on the disk before its reply.
    pub(super) fn is_durable(&self) -> bool {
        self.0.durable.get() != 0
    }

    /// Returns the number of the database's transactions, and the time of the last one in seconds since 1970.
    pub(super) fn committed(&self) -> (u64, Option<i64>) {
        let commits = &self.0.commits;
        (commits.total(), Some(commits.last.get()).filter(|time| *time != 0))
    }

    /// Notes how often the log was synced.
    pub(super) fn note_syncs(&self, count: u64) {
        self.0.syncs.note(count);
    }

    /// Returns the number of syncs of the log, and the time at which it was last found to be greater, in seconds since 1970.
    pub(super) fn synced(&self) -> (u64, Option<i64>) {
        let syncs = &self.0.syncs;
        (syncs.total.get(), Some(syncs.last.get()).filter(|time| *time != 0))
    }

    /// Adds a metric. Each name is added once.
    pub(crate) fn add(&self, metric: Box<dyn prometheus::core::Collector>) {
        self.0.registry.register(metric).expect("each name is registered once");
    }

    /// Adds the metrics of a folder, and returns the counter of the database's transactions.
    pub(crate) fn add_folder(&self, is_durable: bool) -> Commits {
        let Inner { registry, durable, log, live, database, free, reserve, damaged_reads, commits, syncs, .. } = &*self.0;
        durable.set(i64::from(is_durable));
        let all: [Box<dyn prometheus::core::Collector>; 10] = [
            Box::new(damaged_reads.clone()),
            Box::new(log.clone()),
            Box::new(live.clone()),
            Box::new(database.clone()),
            Box::new(free.clone()),
            Box::new(reserve.clone()),
            Box::new(commits.total.clone()),
            Box::new(commits.last.clone()),
            Box::new(syncs.total.clone()),
            Box::new(syncs.last.clone()),
        ];
        for collector in all {
            registry.register(collector).expect("each name is registered once");
        }
        commits.clone()
    }

    /// Sets the metrics of the folder.
    pub(super) fn set_folder(&self, folder: &Folder) {
        self.0.log.set(folder.log_bytes() as i64);
        self.0.database.set(folder.database_bytes() as i64);
        if let Some(free) = folder.room.free() {
            self.0.free.set(free as i64);
        }
        self.0.reserve.set(folder.room.reserved() as i64);
    }

    /// Returns the text of all metrics. It asks the store for the free slots, and for each tenant's use, quota, blobs and share.
    pub(super) async fn text(
        &self,
        store: &Store,
        tenants: &[String],
        slots: u32,
        uploads: usize,
    ) -> Result<String, StoreUnavailable> {
        let Inner { registry, free_slots, used, quota, blobs, share, .. } = &*self.0;
        self.0.uploads.set(uploads as i64);
        self.0.slots.set(i64::from(slots));
        if let Ok(count) = store.free_slots().await? {
            free_slots.set(count as i64);
        }
        let mut live = 0;
        for tenant in tenants {
            if let Ok(usage) = store.usage(tenant).await? {
                live += usage.0;
                used.with_label_values(&[tenant]).set(usage.0 as i64);
                quota.with_label_values(&[tenant]).set(usage.1 as i64);
            }
            if let Ok(held) = store.slot_use(tenant).await? {
                blobs.with_label_values(&[tenant]).set(held.blobs as i64);
                if let Some(most) = held.share {
                    share.with_label_values(&[tenant]).set(most as i64);
                }
            }
        }
        self.0.live.set(live as i64);
        let mut text = Vec::new();
        TextEncoder::new().encode(&registry.gather(), &mut text).expect("writing to memory succeeds");
        Ok(String::from_utf8_lossy(&text).into_owned())
    }
}

#[cfg(test)]
mod tests {
    use super::*;

    #[test]
    fn a_sync_is_counted_once() {
        let syncs = Syncs::new();
        syncs.note(0);
        assert_eq!((syncs.total.get(), syncs.last.get()), (0, 0));
        syncs.note(5);
        syncs.note(3);
        syncs.note(7);
        assert_eq!(syncs.total.get(), 7);
        assert!(syncs.last.get() > 0);
    }
}
