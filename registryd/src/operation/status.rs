//! The state of the registry for its administrator: the JSON of `/status`, and a page that shows it in a browser.
use crate::endpoints::registry::Registry;
use crate::http::fault::Fault;
use crate::http::paths::query_value;
use crate::http::responses::{with_body, HandlerResult};
use crate::metadata::clock;
use crate::metadata::manifest_lists::{Referrer, TagOverview};
use crate::operation::locks::guard_of;
use crate::operation::metrics::CONTENT_TYPE as METRICS_TYPE;
use crate::store::calls::SweepResult;
use crate::store::client::StoreUnavailable;
use hyper::{Method, StatusCode};
use serde_json::{json, Value};
use sha2::{Digest, Sha256};
use std::collections::VecDeque;
use std::sync::Mutex;

/// The page. It has all styles and scripts, and loads nothing but `/status`.
const PAGE: &str = include_str!("status.html");

/// The maximum number of repositories of a reply.
const MAX_REPOSITORIES: usize = 100;

/// The maximum number of tags of a repository in a reply.
const MAX_TAGS: usize = 20;

/// The maximum number of referrers of a tag in a reply.
const MAX_REFERRERS: usize = 8;

/// The number of sweeps that are remembered.
const MAX_SWEEPS: usize = 10;

/// A resource that shows the data of all tenants.
#[derive(Clone, Copy, Debug, PartialEq, Eq)]
pub(crate) enum View {
    /// The page.
    Page,
    /// The JSON that the page shows.
    Status,
    /// The metrics for Prometheus.
    Metrics,
}

impl View {
    /// Returns the resource of a path.
    pub(crate) fn of(path: &str) -> Option<View> {
        match path {
            "/" => Some(View::Page),
            "/status" => Some(View::Status),
            "/metrics" => Some(View::Metrics),
            _ => None,
        }
    }
}

/// A sweep that freed something.
struct Sweep {
    /// The time of its end, in seconds since 1970.
    time: u64,
    freed: u64,
    held: u64,
}

/// The last sweeps of the collector that freed something, the newest first.
#[derive(Default)]
pub(crate) struct SweepHistory(Mutex<VecDeque<Sweep>>);

impl SweepHistory {
    /// Adds a sweep if it freed something.
    pub(super) fn add(&self, swept: &SweepResult) {
        if swept.freed > 0 {
            let mut sweeps = guard_of(self.0.lock());
            sweeps.truncate(MAX_SWEEPS - 1);
            sweeps.push_front(Sweep { time: clock::time_of_day(), freed: swept.freed, held: swept.held });
        }
    }

    fn json(&self) -> Vec<Value> {
        let of = |sweep: &Sweep| json!({ "time": sweep.time, "freed": sweep.freed, "held": sweep.held });
        guard_of(self.0.lock()).iter().map(of).collect()
    }
}

/// Returns the source expression of a policy that permits the text of the page's element (Content Security Policy Level 3,
/// 2.3.1).
fn source_of(element: &str) -> String {
    let (open, close) = (format!("<{element}>"), format!("</{element}>"));
    let text = PAGE.split_once(&open).and_then(|(_, rest)| rest.split_once(&close)).map_or("", |(text, _)| text);
    format!("'sha256-{}'", base64::encode(Sha256::digest(text)))
}

/// Returns a response that no cache keeps.
fn fresh(media_type: &str, text: String, headers: &[(&str, &str)]) -> HandlerResult {
    let own = [("Content-Type", media_type), ("Cache-Control", "no-store")];
    with_body(StatusCode::OK, &[&own[..], headers].concat(), text.into())
}

/// Returns the page. Its policy permits its own style and script, and requests to this registry.
fn page() -> HandlerResult {
    let (style, script) = (source_of("style"), source_of("script"));
    let policy = format!(
        "default-src 'none'; style-src {style}; script-src {script}; connect-src 'self'; base-uri 'none'; form-action 'none'; \
         frame-ancestors 'none'"
    );
    let headers = [("Content-Security-Policy", policy.as_str()), ("Referrer-Policy", "no-referrer")];
    fresh("text/html; charset=utf-8", PAGE.to_string(), &headers)
}

impl Registry {
    /// Serves a view. The caller checks that the client may read it.
    pub(crate) async fn view(&self, view: View, method: &Method, query: Option<&str>) -> HandlerResult {
        if !matches!(*method, Method::GET | Method::HEAD) {
            return Err(Fault::method("GET, HEAD"));
        }
        match (view, query_value(query, "tenant")) {
            (View::Page, _) => page(),
            (View::Metrics, _) => fresh(METRICS_TYPE, self.metrics_text().await?, &[]),
            (View::Status, None) => fresh("application/json", self.status().await?.to_string() + "\n", &[]),
            (View::Status, Some(tenant)) => {
                let last = query_value(query, "last").unwrap_or_default();
                let most = query_value(query, "n").and_then(|n| n.parse().ok()).unwrap_or(MAX_REPOSITORIES);
                let repositories = self.repositories_json(&tenant, &last, most.min(MAX_REPOSITORIES));
                fresh("application/json", repositories.ok_or_else(Fault::path)?.to_string() + "\n", &[])
            }
        }
    }

    /// Returns the state of the store and of each tenant.
    async fn status(&self) -> Result<Value, StoreUnavailable> {
        let names = self.tenants.names();
        let mut tenants = Vec::with_capacity(names.len());
        for tenant in names.iter() {
            let (used, quota) = self.store.usage(tenant).await?.unwrap_or_default();
            let held = self.store.slot_use(tenant).await?.ok();
            let (totals, bounds) = (self.manifests.totals(tenant), self.bounds_of(tenant));
            let mut state = json!({
                "name": tenant,
                "used": used,
                "quota": quota,
                "blobs": held.as_ref().map(|held| held.blobs),
                "share": held.as_ref().and_then(|held| held.share),
                "repositories": self.repositories.count(tenant),
                "manifests": totals.manifests,
                "most_manifests": bounds.manifests,
                "manifest_bytes": totals.manifest_bytes,
                "most_manifest_bytes": bounds.manifest_bytes,
                "tags": totals.tags,
                "most_tags": bounds.tags,
            });
            if let Some(mirror) = self.mirrors.of(tenant) {
                state["mirror"] = mirror.json(self.cached.count(tenant));
            }
            if let Some((stage, other)) = self.moves.show(tenant).ok().and_then(|shown| Some((shown.stage?, shown.other))) {
                state["move"] = json!({ "stage": stage, "other": other });
            }
            tenants.push(state);
        }
        self.note_syncs().await?;
        let (sweeps, freed, held) = self.metrics.swept();
        Ok(json!({
            "version": env!("CARGO_PKG_VERSION"),
            "time": clock::time_of_day(),
            "started": self.started,
            "store": self.provenance.json(),
            "durable": self.metrics.is_durable(),
            "slots": self.slots,
            "free_slots": self.store.free_slots().await?.ok(),
            "uploads": self.uploads.len(),
            "collector": { "sweeps": sweeps, "freed": freed, "held": held, "last": self.sweeps.json() },
            "folder": self.folder_json(),
            "immutable_tags": self.immutable_tags.as_ref().map(|tags| json!({ "rules": tags.rules(), "refusals": tags.refusals.get() })),
            "signed_tags": self.signed_tags.as_ref().map(|tags| tags.json()),
            "retention": self.retention.as_ref().map(|retention| retention.json()),
            "events": self.events.as_ref().map(|events| events.queue.json()),
            "scrub": self.scrub.as_ref().map(|scrub| scrub.json()),
            "bounds": {
                "manifests": self.bounds.given.manifests,
                "manifest_bytes": self.bounds.given.manifest_bytes,
                "tags": self.bounds.given.tags,
            },
            "tenants": tenants,
        }))
    }

    /// Returns the state of the folder, if there is one.
    fn folder_json(&self) -> Option<Value> {
        let folder = self.folder.as_ref()?;
        let (commits, last_commit) = self.metrics.committed();
        let (syncs, last_sync) = self.metrics.synced();
        Some(json!({
            "log_bytes": folder.log_bytes(),
            "database_bytes": folder.database_bytes(),
            "free_bytes": folder.room.free(),
            "min_free_bytes": folder.room.min_free(),
            "reserve_bytes": folder.room.reserved(),
            "serves": folder.room.level().name(),
            "commits": commits,
            "last_commit": last_commit,
            "syncs": syncs,
            "last_sync": last_sync,
        }))
    }

    /// Returns the first repositories of a tenant after `last` in order, each with its first tags. Returns `None` if there
    /// is no such tenant.
    fn repositories_json(&self, tenant: &str, last: &str, most: usize) -> Option<Value> {
        if !self.tenants.has(tenant) {
            return None;
        }
        let (names, more) = self.repositories.page(tenant, last, most);
        let repositories: Vec<Value> = names.iter().map(|name| self.repository_json(name)).collect();
        Some(json!({ "tenant": tenant, "repositories": repositories, "more": more }))
    }

    fn repository_json(&self, name: &str) -> Value {
        let overview = self.manifests.overview(name, MAX_TAGS, MAX_REFERRERS);
        let tags: Vec<Value> = overview.tags.iter().map(tag_json).collect();
        json!({ "name": name, "manifests": overview.manifests, "tags": tags, "more_tags": overview.more })
    }

    /// Asks the store how often its log was synced, if it has one, and notes the number.
    pub(super) async fn note_syncs(&self) -> Result<(), StoreUnavailable> {
        if self.folder.is_some() {
            if let Ok(count) = self.store.sync_count().await? {
                self.metrics.note_syncs(count);
            }
        }
        Ok(())
    }

    /// Returns the metrics of all tenants.
    pub(super) async fn metrics_text(&self) -> Result<String, StoreUnavailable> {
        if let Some(folder) = &self.folder {
            self.metrics.set_folder(folder);
        }
        if let Some(events) = &self.events {
            events.queue.set_metrics();
        }
        self.note_syncs().await?;
        self.metrics.text(&self.store, &self.tenants.names(), self.slots, self.uploads.len()).await
    }
}

fn tag_json(tag: &TagOverview) -> Value {
    let TagOverview { name, manifest, referrers } = tag;
    let items: Vec<Value> = referrers.items.iter().map(referrer_json).collect();
    json!({
        "name": name,
        "digest": manifest.digest,
        "media_type": manifest.media_type,
        "referrers": items,
        "more_referrers": referrers.more,
    })
}

fn referrer_json(referrer: &Referrer) -> Value {
    json!({ "digest": referrer.digest, "media_type": referrer.media_type, "artifact_type": referrer.artifact_type })
}

#[cfg(test)]
mod tests {
    use super::*;

    #[test]
    fn the_newest_sweeps_that_freed_something_are_remembered() {
        let history = SweepHistory::default();
        for freed in 0..=MAX_SWEEPS as u64 + 1 {
            history.add(&SweepResult { freed, held: 1 });
        }
        let freed: Vec<u64> = history.json().iter().map(|sweep| sweep["freed"].as_u64().unwrap()).collect();
        assert_eq!(freed, (2..=MAX_SWEEPS as u64 + 1).rev().collect::<Vec<_>>());
    }

    #[test]
    fn the_page_loads_nothing_from_elsewhere() {
        for word in ["http:", "https:", "src=", "href=", "@import", "url(", "innerHTML", "style="] {
            assert!(!PAGE.contains(word), "{word}");
        }
        assert!(PAGE.matches("<script>").count() == 1 && PAGE.matches("<style>").count() == 1);
    }

    #[test]
    fn views_have_paths() {
        assert_eq!(["/", "/status", "/metrics"].map(View::of), [Some(View::Page), Some(View::Status), Some(View::Metrics)]);
        assert_eq!(["", "/v2/", "/status/", "/index.html"].map(View::of), [None; 4]);
    }
}
