//! The mirrors of a registry, and the state of each.
use crate::endpoints::registry::Registry;
use crate::metadata::names::tenant_of;
use crate::metadata::turns::Turns;
use crate::mirror::client::Upstream;
use crate::mirror::fetches::{Fetches, MAX_FETCHES};
use crate::mirror::images::Images;
use crate::mirror::passing::{CheckedTags, LastFailures, PassingManifests};
use serde_json::{json, Value};
use std::collections::HashMap;
use std::sync::atomic::{AtomicU64, Ordering};
use std::sync::Arc;
use std::time::Duration;
use tokio::sync::Semaphore;
use uuid::Uuid;

/// How a mirror works.
#[derive(Clone)]
pub(crate) struct Settings {
    /// The time for which a tag is believed before the upstream is asked again.
    pub(crate) tag_time: Duration,
    /// The pause between two copies of everything, if everything is copied.
    pub(crate) copy_rest: Option<Duration>,
}

/// A tenant that is a copy of another registry.
pub(crate) struct Mirror {
    pub(crate) tenant: String,
    pub(crate) upstream: Upstream,
    pub(super) settings: Settings,
    /// Those who ask the upstream for one manifest take turns.
    pub(super) turns: Turns,
    pub(super) tags: CheckedTags,
    pub(super) passing: PassingManifests,
    pub(super) failures: LastFailures,
    pub(super) fetches: Fetches,
    pub(super) fetch_permits: Semaphore,
    /// The bytes for which room was made and that the store does not have yet.
    pub(super) promised: AtomicU64,
    /// Those who make room take turns.
    pub(super) room: tokio::sync::Mutex<()>,
    /// The images of which the blobs are being fetched.
    pub(super) images: Images,
    /// The last copy of everything.
    pub(super) copied: Copied,
}

/// The last copy of everything that ended.
#[derive(Default)]
pub(crate) struct Copied {
    /// The time of its end, in seconds since 1970, or 0.
    pub(super) time: AtomicU64,
    pub(super) tags: AtomicU64,
    /// The number of its tags that were not copied.
    pub(super) failed: AtomicU64,
}

impl Mirror {
    pub(crate) fn new(upstream: Upstream, tenant: &str, settings: Settings) -> Mirror {
        Mirror {
            tenant: tenant.to_string(),
            upstream,
            settings,
            turns: Turns::default(),
            tags: CheckedTags::default(),
            passing: PassingManifests::default(),
            failures: LastFailures::default(),
            fetches: Fetches::default(),
            fetch_permits: Semaphore::new(MAX_FETCHES),
            promised: AtomicU64::new(0),
            room: tokio::sync::Mutex::new(()),
            images: Images::default(),
            copied: Copied::default(),
        }
    }

    /// Abandons what fetches of the time before the start left, and copies everything at intervals if that is asked for.
    /// `left` are the uploads that were open at the start.
    pub(crate) async fn run(self: Arc<Self>, registry: Arc<Registry>, left: Vec<Uuid>) {
        let _ = registry.abandon_all(left).await;
        if let Some(rest) = self.settings.copy_rest {
            self.copy_at_intervals(registry, rest).await;
        }
    }

    /// Returns the state for the administrator. `copies` is the number of manifests and blobs that the mirror made.
    pub(crate) fn json(&self, copies: usize) -> Value {
        let counts = &self.upstream.counts;
        let (failures, last) = counts.failures();
        let copied = self.settings.copy_rest.map(|rest| {
            let number = |of: &AtomicU64| of.load(Ordering::Relaxed);
            let time = Some(number(&self.copied.time)).filter(|time| *time > 0);
            json!({ "rest": rest.as_secs(), "time": time, "tags": number(&self.copied.tags), "failed": number(&self.copied.failed) })
        });
        json!({
            "upstream": self.upstream.address.text(),
            "copies": copies,
            "fetches": self.fetches.len(),
            "hits": counts.hits.get(),
            "misses": counts.misses.get(),
            "fetched_bytes": counts.fetched.get(),
            "evicted": counts.evicted.get(),
            "failures": failures,
            "last_failure": last.map(|last| json!({ "time": last.time, "why": last.text })),
            "limited_for": self.upstream.limited_for(),
            "copied": copied,
        })
    }
}

/// The mirrors, by tenant.
#[derive(Default)]
pub(crate) struct Mirrors(HashMap<String, Arc<Mirror>>);

impl Mirrors {
    pub(crate) fn new(mirrors: Vec<Mirror>) -> Mirrors {
        Mirrors(mirrors.into_iter().map(|mirror| (mirror.tenant.clone(), Arc::new(mirror))).collect())
    }

    /// Returns the mirror to which a repository belongs, if it belongs to one.
    pub(crate) fn of(&self, repo: &str) -> Option<&Arc<Mirror>> {
        self.0.get(tenant_of(repo))
    }

    /// Returns all mirrors.
    pub(crate) fn all(&self) -> impl Iterator<Item = &Arc<Mirror>> {
        self.0.values()
    }
}
